{-# OPTIONS --safe #-}
-- A tick tries each timer that is due, if the board has at most 32 timers.
module proofs.Ticks where

open import Prelude
open import board-terms.Dues using (Dues; timer-of)
open import board-terms.declared.refusal.Refusal using (ClockBack)
open import core.List using (insert; position-or-len; range-with-len)
open import core.Option using (option-map-or)
open import law-board.Theorems using (a-tick-tries-each-of-32-timers)
open import law-board.Ticks using (attempted-all)
open import lib.ListN using (length) renaming (get-or to get)
open import stimer-bank.Bank using (active-due; due-below; due-list; dues; is-later; listed)
open import synic-board.Effects using (Effect; after; answered; refused; unchanged)
open import synic-board.State using (State; bank-of)
open import synic-board.Timers using (at-moment; attempted; attempted-until; is-ready; most-expiries)
open import synic-board.declared.event.Reply using (Reply)
open import proofs.Equality
open import proofs.Lists using (length-map; length-range)
open import proofs.Numbers using (≤-of; ≤-refl; ≤-trans)

below-suc : (m n : ℕ) → m ≤ n → m ≤ suc n
below-suc zero n p = tt
below-suc (suc m) (suc n) p = below-suc m n p

each-tried : (n : ℕ) (s : State) (ts : List (ℕ × ℕ)) → length ts ≤ n → attempted-until n s ts ≡ attempted-all s ts
each-tried zero s [] p = refl
each-tried (suc n) s [] p = refl
each-tried (suc n) s (t ∷ ts) p = cong (after (attempted s t)) (by (is-ready s t))
  where
  by : (b : Bool) → attempted-until (if b then n else suc n) (fst (attempted s t)) ts ≡ attempted-all (fst (attempted s t)) ts
  by true = each-tried n (fst (attempted s t)) ts p
  by false = each-tried (suc n) (fst (attempted s t)) ts (below-suc (length ts) n p)

length-insert : {A : Set} (xs : List A) (i : ℕ) (x : A) → length (insert xs i x) ≡ suc (length xs)
length-insert xs zero x = refl
length-insert [] (suc i) x = refl
length-insert (y ∷ xs) (suc i) x = cong suc (length-insert xs i x)

one-more : (m : Dues) (moment n : ℕ) (ts : List (ℕ × ℕ)) → length (listed m moment n ts) ≤ suc (length ts)
one-more m moment n ts = by (get m n None)
  where
  same-or-more : {d : ℕ} (b : Bool)
    → length (if b then insert ts (position-or-len (is-later m d) ts) (timer-of n) else ts) ≤ suc (length ts)
  same-or-more {d} true = ≤-of _ _ (length-insert ts (position-or-len (is-later m d) ts) (timer-of n))
  same-or-more false = below-suc (length ts) (length ts) (≤-refl (length ts))
  by : (o : Option ℕ) → length (option-map-or (λ d → if leb d moment then insert ts (position-or-len (is-later m d) ts)
    (timer-of n) else ts) o ts) ≤ suc (length ts)
  by None = same-or-more {0} false
  by (Some d) = same-or-more (leb d moment)

at-most : (m : Dues) (moment n : ℕ) → length (due-below m moment n) ≤ n
at-most m moment zero = tt
at-most m moment (suc n) = ≤-trans (length (due-below m moment (suc n))) (suc (length (due-below m moment n))) (suc n)
  (one-more m moment n (due-below m moment n)) (at-most m moment n)

tries-each : a-tick-tries-each-of-32-timers
tries-each s moment few = cong (λ e → if ltb moment (State.moment s) then refused s ClockBack else
    if moment == State.moment s then unchanged s Reply.Done else answered Reply.Done e)
  (each-tried most-expiries (at-moment s moment) (due-list (dues (bank-of s)) moment)
    (≤-trans (length (due-list (dues (bank-of s)) moment)) (length (dues (bank-of s))) most-expiries (at-most (dues (bank-of s)) moment (length (dues (bank-of s)))) (subst (_≤ 32) (sym timers) few)))
  where
  timers : length (dues (bank-of s)) ≡ length (State.timers s)
  timers = trans (length-map (active-due (bank-of s)) (range-with-len 0 (length (State.timers s)))) (length-range 0 (length (State.timers s)))
