{-# OPTIONS --safe #-}
-- A refused event changes nothing, and can be left out of a run.
module proofs.Refusals where

open import Prelude
open import core.Option using (option-map-or)
open import lib.ListN using (length)
open import arrayvec.ArrayVec using (ArrayVec)
open import event-ports.Ports using (open-refusal; target-of; message-target-of; flag-place-of)
open import event-ports.declared.ports.Port using (Port)
open import board-terms.declared.notices.Notice using (Notice)
open import board-terms.declared.refusal.Refusal using (Refusal)
open import gpa-space.Space using (refusal-of; is-flag-set)
open import synic-regs.Regs using (Regs; has; enable; is-refused)
open import synic-regs.Registers using (register-of)
open import synic-regs.declared.register.Register using (Register)
open import synic-board.Effects using (Outcome)
open import synic-board.Posts using (closed-at; posted-at; signalled-at; post-refusal)
open import synic-board.Registers using (stored; written-register)
open import synic-board.Replies using (IsRefusal)
open import synic-board.Run using (run-of)
open import synic-board.State
open import synic-board.Step using (step)
open import synic-board.Suspending using (is-suspended)
open import synic-board.declared.event.Event using (Event)
open import synic-board.declared.event.Reply using (Reply)
open import law-board.Theorems using (a-refusal-leaves-no-trace; a-refusal-can-be-left-out)
open import proofs.Equality
open Event
open Register

-- if the reply is a refusal, the state is the same and there is no notice
record Still (s : State) (o : Outcome) : Set where
  constructor kept
  field
    keeps : IsRefusal (fst (snd o)) → fst o ≡ s × snd (snd o) ≡ []
open Still

same : {s : State} {r : Reply} → Still s (s , r , [])
same = kept λ _ → refl , refl

if-still : {s : State} (b : Bool) {x y : Outcome} → Still s x → Still s y → Still s (if b then x else y)
if-still true p q = p
if-still false p q = q

option-still : {A : Set} {s : State} {f : A → Outcome} (o : Option A) {d : Outcome}
  → ((a : A) → Still s (f a)) → Still s d → Still s (option-map-or f o d)
option-still None p q = q
option-still (Some a) p q = p a

stored-still : (s : State) (p : ℕ) (r : Register) (v : ℕ) → Still s (stored s p r v)
stored-still s p r v = if-still (is-refused r v) same (kept λ ())

register-still : (s : State) (p : ℕ) (r : Register) (v : ℕ) → Still s (written-register s p r v)
register-still s p ReferenceCounter v = same
register-still s p Eoi v = kept λ ()
register-still s p Tpr v = kept λ ()
register-still s p Control v = stored-still s p Control v
register-still s p Version v = same
register-still s p Sief v = stored-still s p Sief v
register-still s p Sim v = stored-still s p Sim v
register-still s p Eom v = kept λ ()
register-still s p (Source n) v = stored-still s p (Source n) v
register-still s p (TimerConfig n) v = kept λ ()
register-still s p (TimerCount n) v = kept λ ()

closed-still : (s : State) (port : ℕ) (r : Result Port Refusal) → Still s (closed-at s port r)
closed-still s port (Ok x) = kept λ ()
closed-still s port (Err x) = same

posted-still : (s : State) (port kind : ℕ) (b : ArrayVec ℕ) (r : Result Port Refusal) → Still s (posted-at s port kind b r)
posted-still s port kind b (Ok p) = option-still (post-refusal s port (Port.vp p) (Port.shape p)) (λ _ → same) (kept λ ())
posted-still s port kind b (Err x) = same

signalled-still : (s : State) (r : Result (ℕ × ℕ × ℕ) Refusal) → Still s (signalled-at s r)
signalled-still s (Ok (p , i , flag)) =
  if-still (not (has (Regs.control (regs-of s p)) enable && has (Regs.sief (regs-of s p)) enable)) same
    (if-still (is-flag-set (space-of s) p i flag) (kept λ ()) (kept λ ()))
signalled-still s (Err x) = same

still : (s : State) (event : Event) → Still s (step s event)
still s (OpenPort port p i shape) = option-still (open-refusal (ports-of s) port p i shape) (λ _ → same) (kept λ ())
still s (ClosePort port) = closed-still s port (target-of (ports-of s) port)
still s (Write p n v) = if-still (ltb p (processors s)) (option-still (register-of n) (λ r → register-still s p r v) same) same
still s (Read p n) = if-still (ltb p (processors s)) same same
still s (Post port kind b) = posted-still s port kind b (message-target-of (ports-of s) port kind)
still s (Signal port flag) = signalled-still s (flag-place-of (ports-of s) port flag)
still s (Assert p v) = if-still (ltb p (processors s)) (kept λ ()) same
still s (Absorb p part bits) = if-still (ltb p (processors s)) (if-still (leb part 3) (kept λ ()) same) same
still s (Store a b) = option-still (refusal-of (space-of s) a (length (ArrayVec.items b))) (λ _ → same) (kept λ ())
still s (Load a n) = same
still s (Tick m) = if-still (ltb m (State.moment s)) same (if-still (m == State.moment s) same (kept λ ()))
still s (Take p) = if-still (ltb p (processors s)) (kept λ ()) same
still s (Suspend p) = if-still (ltb p (processors s)) (if-still (is-suspended s p) same (kept λ ())) same
still s (Resume p) = if-still (ltb p (processors s)) (if-still (is-suspended s p) (kept λ ()) same) same
still s (Reset p) = if-still (ltb p (processors s)) (kept λ ()) same
still s (Send v m) = if-still (ltb m (2 ^ processors s)) (kept λ ()) same

leaves-no-trace : a-refusal-leaves-no-trace
leaves-no-trace s event = keeps (still s event)

-- the event is the first of the run
first : (s : State) (o : Outcome) (behind : List Event) → fst o ≡ s → snd (snd o) ≡ []
  → fst (run-of (fst o) behind) ≡ fst (run-of s behind)
    × (fst (snd o) ∷ fst (snd (run-of (fst o) behind))) ≡ (fst (snd o) ∷ fst (snd (run-of s behind)))
    × snd (snd o) ++ snd (snd (run-of (fst o) behind)) ≡ snd (snd (run-of s behind))
first s (.s , r , .[]) behind refl refl = refl , refl , refl

can-be-left-out : a-refusal-can-be-left-out
can-be-left-out s [] event behind refused = let same = keeps (still s event) refused in first s (step s event) behind (fst same) (snd same)
can-be-left-out s (e ∷ before) event behind refused =
  let rest = can-be-left-out (fst (step s e)) before event behind refused in
  fst rest , cong (λ l → fst (snd (step s e)) ∷ l) (fst (snd rest)) , cong (λ l → snd (snd (step s e)) ++ l) (snd (snd rest))
