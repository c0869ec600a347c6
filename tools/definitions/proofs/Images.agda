{-# OPTIONS --safe #-}
-- An image leads to one state, and has no wrong line.
module proofs.Images where

open import Prelude
open import text-image.declared.piece.Piece using (Piece)
open import synic-board.State using (State)
open import synic-board.Registers using (stored)
open import text-base.Lines using (lines-of; rest-of)
open import text-restore.Restoring
open import text-restore.Images
open import law-images.Theorems using (an-image-has-one-state; an-image-has-no-wrong-line)
open import proofs.Equality

-- a piece leads from a state to one state
restores-one : (s : State) (x : Piece) (a b : State) → Restores s x a → Restores s x b → a ≡ b
restores-one s (Piece.Moment t) a b (_ , _ , p) (_ , _ , q) = trans p (sym q)
restores-one s (Piece.Lapic vp l) a b (_ , p) (_ , q) = trans p (sym q)
restores-one s (Piece.Control vp v) a b (_ , _ , p) (_ , _ , q) = trans p (sym q)
restores-one s (Piece.Overlay vp k v) a b (_ , _ , p) (_ , _ , q) = trans p (sym q)
restores-one s (Piece.Source vp i v) a b (_ , _ , p) (_ , _ , q) = cong fst (trans p (sym q))
restores-one s (Piece.Guest n at bytes) a b (_ , _ , p) (_ , _ , q) = trans p (sym q)
restores-one s (Piece.Own vp k at bytes) a b (_ , _ , _ , p) (_ , _ , _ , q) = trans p (sym q)
restores-one s (Piece.Port n vp i shape) a b p q = cong fst (trans p (sym q))
restores-one s (Piece.Timer vp i config count due) a b (_ , _ , _ , _ , p) (_ , _ , _ , _ , q) = trans p (sym q)
restores-one s (Piece.Queued vp i m) a b (_ , _ , _ , p) (_ , _ , _ , q) = trans p (sym q)
restores-one s (Piece.Slot vp i t) a b (_ , _ , _ , p) (_ , _ , _ , q) = trans p (sym q)
restores-one s Piece.End a b p q = trans p (sym q)

continues-one : (s : State) (last lapics : ℕ) (x : Piece) (a b : Stage)
  → Continues s last lapics x a → Continues s last lapics x b → a ≡ b
continues-one s last lapics x a b (m ,, _ , _ , p , e) (n ,, _ , _ , q , f) =
  trans e (trans (cong (λ new → Body new (rank-of x) (lapics-after lapics x)) (restores-one s x m n p q)) (sym f))

opens-one : (line : List ℕ) (a b : Stage) → Opens line a → Opens line b → a ≡ b
opens-one line a b (c ,, p ,, t ,, i , _ , e) (d ,, q ,, u ,, j , _ , f) with trans (sym i) j
... | refl = trans e (sym f)

-- a line leads from a stage to one stage
follows-one : (stage : Stage) (line : List ℕ) (a b : Stage) → Follows stage line a → Follows stage line b → a ≡ b
follows-one Untitled line a b (_ , p) (_ , q) = trans p (sym q)
follows-one Titled line a b p q = opens-one line a b p q
follows-one (Body s last lapics) line a b (x ,, i , p) (y ,, j , q) with trans (sym i) j
... | refl = continues-one s last lapics x a b p q

leads-one : (stage : Stage) (lines : List (List ℕ)) (a b : Stage) → Leads stage lines a → Leads stage lines b → a ≡ b
leads-one stage [] a b p q = trans p (sym q)
leads-one stage (line ∷ lines) a b (m ,, _ , p , ps) (n ,, _ , q , qs) =
  leads-one n lines a b (subst (λ x → Leads x lines a) (follows-one stage line m n p q) ps) qs

complete-one : (stage : Stage) (s t : State) → IsComplete stage s → IsComplete stage t → s ≡ t
complete-one stage s t (_ ,, p) (_ ,, q) with trans (sym p) q
... | refl = refl

one-state : an-image-has-one-state
one-state text s t (a ,, p , c , _) (b ,, q , d , _) =
  complete-one b s t (subst (λ x → IsComplete x s) (leads-one Untitled (lines-of text) a b p q) c) d

-- lines one after another lead to where their two parts lead
parts : (stage : Stage) (lines left : List (List ℕ)) (new : Stage) → Leads stage (lines ++ left) new
  → Σ[ middle ∈ Stage ] (Leads stage lines middle × Leads middle left new)
parts stage [] left new p = stage ,, refl , p
parts stage (line ∷ lines) left new (n ,, size , p , ps) =
  let (m ,, q , r) = parts n lines left new ps in m ,, (n ,, size , p , q) , r

not-stuck : (stage : Stage) (left : List (List ℕ)) (rest : List ℕ) (new : Stage) (s : State)
  → Leads stage left new → IsComplete new s → rest ≡ [] → IsStuck stage left rest → ⊥
not-stuck stage [] rest new s p c e stuck = stuck s (subst (λ x → IsComplete x s) p c) e
not-stuck stage (line ∷ left) rest new s (n ,, size , p , _) c e stuck = stuck n size p

no-wrong-line : an-image-has-no-wrong-line
no-wrong-line text s k (new ,, p , c , e) (lines ,, left ,, stage ,, split , _ , q , stuck) =
  let (m ,, r , rest) = parts Untitled lines left new (subst (λ l → Leads Untitled l new) split p) in
  not-stuck stage left (rest-of text) new s
    (subst (λ x → Leads x left new) (leads-one Untitled lines m stage r q) rest) c e stuck
