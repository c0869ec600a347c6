{-# OPTIONS --safe #-}
-- No accepted message is lost or doubled: after any events from an opened board, each ticket that was given is in one
-- queue or slot, or was consumed or withdrawn once, and no other ticket is or was.
module proofs.Accounts where

open import Prelude
open import board-terms.Messages using (ticket-of)
open import core.List using (All; filter-map; flat-map)
open import event-ports.Ports using (port-count)
open import gpa-space.Page using (zero-page)
open import law-board.Accounts using (Accounts)
open import law-board.Theorems using (each-ticket-is-accounted-for)
open import lib.ListN using (length; replicate)
open import synic-board.Locations using (given; is-end-of; locations; times; times-ended)
open import synic-board.Run using (run-of)
open import synic-board.Sound using (PayloadFits)
open import synic-board.State using (State; opened)
open import synic-board.Step using (step)
open import synic-board.declared.event.Event using (Event)
open import proofs.Equality
open import proofs.Kept
open import proofs.Lists
open import proofs.Numbers
open import proofs.Removals using (KeepsO; of-outcome)
open import proofs.Steps using (step-keeps)
open State

run-keeps : (n : ℕ) (s : State) (events : List Event) → All PayloadFits events
  → Keeps n s (fst (run-of s events)) (snd (snd (run-of s events)))
run-keeps n s [] fit = keeps-nothing
run-keeps n s (e ∷ es) fit = keeps-after (of-outcome (step-keeps n s e (fit 0 e tt)))
  (run-keeps n (fst (step s e)) es λ k d less → fit (suc k) d less)

sound-opened : (n pages first : ℕ) → Sound n (opened n pages first)
sound-opened n pages first = whole (length-replicate n _) (length-replicate (2 * n) _)
    (λ k p → trans (cong length (get-replicate (2 * n) k zero-page [] (subst (k <_) (length-replicate (2 * n) zero-page) p)))
      (length-replicate 4096 0))
    (length-replicate (16 * n) _) (length-replicate (16 * n) _) (length-replicate (4 * n) _)
    (λ k → subst (Reaches n) (sym (get-default (port-count n (pages == 0)) k None)) tt) (λ k → subst AreQueued (sym (get-default (16 * n) k [])) tt) ,
  λ p i b c e → get-default (16 * n) (16 * p + i) None

nothing-held : (n pages first t : ℕ) → held t (opened n pages first) ≡ 0
nothing-held n pages first t = cong₂ _+_ (total-none (in-queue t) (16 * n) [] refl) (total-none (in-slot t) (16 * n) None refl)

held-at : (t : ℕ) (s : State) → times t (locations s) ≡ held t s
held-at t s = trans (counted (λ x → x == t) (locations s))
  (trans (total-++ w (flat-map (map ticket-of) (queues s)) (filter-map (λ x → x) (slots s)))
    (cong₂ _+_ (total-flat w (map ticket-of) (queues s)) (total-some w (slots s))))
  where
  w = one (λ x → x == t)

-- what a ticket was counted before the first one, and at the end
counted-once : (h e first last t : ℕ) → h + e + (if ltb t first then 1 else 0) ≡ 0 + (if ltb t last then 1 else 0)
  → h ≤ 1 × h + e ≡ (if leb first t && ltb t last then 1 else 0)
counted-once h e first last t balance = by (below-or t first)
  where
  one-at-most : (b : Bool) → (if b then 1 else 0) ≤ 1
  one-at-most true = tt
  one-at-most false = tt
  bound : (b : Bool) → h + e ≡ (if b then 1 else 0) → h ≤ 1
  bound b f = ≤-trans h (h + e) 1 (≤-plus h e) (subst (_≤ 1) (sym f) (one-at-most b))
  one-less : (x : ℕ) (b : Bool) → x + 1 ≡ (if b then 1 else 0) → x ≡ 0
  one-less zero b f = refl
  one-less (suc zero) true ()
  one-less (suc zero) false ()
  one-less (suc (suc x)) true ()
  one-less (suc (suc x)) false ()
  truth : (b : Bool) → T b → b ≡ true
  truth true p = refl
  not-less : (a b : ℕ) → b ≤ a → ltb a b ≡ false
  not-less a zero p = refl
  not-less (suc a) (suc b) p = not-less a b p
  not-least : (a b : ℕ) → a < b → leb b a ≡ false
  not-least zero (suc b) p = refl
  not-least (suc a) (suc b) p = not-least a b p
  by : t < first ⊎ first ≤ t → h ≤ 1 × h + e ≡ (if leb first t && ltb t last then 1 else 0)
  by (inl p) = bound false none-left , trans none-left (cong (λ b → if b && ltb t last then 1 else 0) (sym (not-least t first p)))
    where
    none-left : h + e ≡ 0
    none-left = one-less (h + e) (ltb t last) (trans (cong (λ b → h + e + (if b then 1 else 0)) (sym (truth _ p))) balance)
  by (inr p) = bound (ltb t last) all , trans all (cong (λ b → if b && ltb t last then 1 else 0) (sym (truth _ p)))
    where
    all : h + e ≡ (if ltb t last then 1 else 0)
    all = trans (sym (+-zero (h + e))) (trans (cong (λ b → h + e + (if b then 1 else 0)) (sym (not-less t first p))) balance)

accounted : each-ticket-is-accounted-for
accounted n pages first events fit = (λ t → fst (both t)) , λ t → snd (both t)
  where
  s = opened n pages first
  r = run-of s events
  both : (t : ℕ) → times t (locations (fst r)) ≤ 1 × times t (locations (fst r)) + times-ended t (snd (snd r)) ≡ given t s (fst r)
  both t = subst (λ h → h ≤ 1 × h + times-ended t (snd (snd r)) ≡ given t s (fst r)) (sym (held-at t (fst r)))
    (subst (λ e → held t (fst r) ≤ 1 × held t (fst r) + e ≡ given t s (fst r)) (sym (counted (is-end-of t) (snd (snd r))))
      (counted-once (held t (fst r)) (ended t (snd (snd r))) first (next-ticket (fst r)) t
        (trans (snd (from (run-keeps n s events fit) (sound-opened n pages first)) t)
          (cong (_+ before t (fst r)) (nothing-held n pages first t)))))
