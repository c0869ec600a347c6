{-# OPTIONS --safe #-}
-- Three laws of the alarm: when a host must tick next.
module proofs.Alarms where

open import Prelude
open import board-terms.Dues using (Dues; earlier; least; least-below; timer-of)
open import core.List using (range-with-len)
open import core.Option using (option-map; option-map-or)
open import law-alarm.Alarm using (is-alarm-by)
open import law-alarm.Theorems
open import lib.ListN using (length) renaming (get-or to get)
open import stimer-bank.Bank using (active-due; dues)
open import synic-board.Alarm using (alarm; ready-due; ready-dues; within)
open import synic-board.State using (State; bank-of)
open import synic-board.Timers using (is-ready-for; mode-at)
open import proofs.Equality
open import proofs.Lists using (length-map)

-- a timer that is late is hidden by the next deadline

hidden : the-next-deadline-hides-a-late-timer
hidden = refl , refl

-- a clock of 64 bits

not-by : (a m bound : ℕ) → m < bound → ltb a bound ≡ false → leb a m ≡ false
not-by zero m (suc bound) less ()
not-by (suc a) zero (suc bound) less e = refl
not-by (suc a) (suc m) (suc bound) less e = not-by a m bound less e

within-serves : (bound m : ℕ) (o : Option ℕ) → m < bound → is-alarm-by (within bound o) m ≡ is-alarm-by o m
within-serves bound m None less = refl
within-serves bound m (Some a) less = by (ltb a bound) refl
  where
  by : (b : Bool) → ltb a bound ≡ b → is-alarm-by (if b then Some a else None) m ≡ leb a m
  by true e = refl
  by false e = sym (not-by a m bound less e)

clock : the-alarm-of-a-clock-of-64-bits-serves
clock s moment less = within-serves (2 ^ 64) moment (alarm s) less

-- no timer has a deadline

private
  variable
    A B : Set

map-none : {f : A → B} (o : Option A) → option-map f o ≡ None → o ≡ None
map-none None e = refl

none-map : {f : A → B} {o : Option A} → o ≡ None → option-map f o ≡ None
none-map refl = refl

none-of : {f : A → Option B} {o : Option A} {d : Option B} → o ≡ None → d ≡ None → option-map-or f o d ≡ None
none-of refl e = e

least-none : (m m′ : Dues) → ((k : ℕ) → get m k None ≡ None → get m′ k None ≡ None) → (n : ℕ)
  → least-below m n ≡ None → least-below m′ n ≡ None
least-none m m′ f zero e = refl
least-none m m′ f (suc n) e = by (get m n None) refl e
  where
  by : (o : Option ℕ) → get m n None ≡ o
    → option-map-or (λ d → Some (earlier (least-below m n) (d , n))) o (least-below m n) ≡ None → least-below m′ (suc n) ≡ None
  by None d e = none-of (f n d) (least-none m m′ f n e)
  by (Some d) _ ()

none-mapped : (f g : ℕ → Option ℕ) → ((x : ℕ) → f x ≡ None → g x ≡ None) → (xs : List ℕ) (k : ℕ)
  → get (map f xs) k None ≡ None → get (map g xs) k None ≡ None
none-mapped f g p [] k e = refl
none-mapped f g p (x ∷ xs) zero e = p x e
none-mapped f g p (x ∷ xs) (suc k) e = none-mapped f g p xs k e

none-if : (b : Bool) {o : Option A} → o ≡ None → (if b then o else None) ≡ None
none-if true e = e
none-if false e = refl

none : the-earliest-timer-has-the-alarm-if-it-is-ready-none
none s e = none-map (none-map (subst (λ n → least-below (ready-dues s) n ≡ None) same-length
  (least-none (dues (bank-of s)) (ready-dues s) (none-mapped (active-due (bank-of s)) (ready-due s) without numbers) (length (dues (bank-of s)))
    (map-none _ e))))
  where
  numbers = range-with-len 0 (length (State.timers s))
  without : (n : ℕ) → active-due (bank-of s) n ≡ None → ready-due s n ≡ None
  without n = none-if (is-ready-for s (timer-of n) (mode-at s (timer-of n)))
  same-length : length (dues (bank-of s)) ≡ length (ready-dues s)
  same-length = trans (length-map (active-due (bank-of s)) numbers) (sym (length-map (ready-due s) numbers))
