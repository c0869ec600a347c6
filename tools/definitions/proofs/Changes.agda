{-# OPTIONS --safe #-}
-- What is saved of a list in which one element changed: if all from there on were idle, its change is saved last.
module proofs.Changes where

open import Prelude
open import law-board.Saved using (changed; is-idle)
open import law-board.Theorems using (a-last-change-is-saved-last)
open import lib.ListN using (length; set) renaming (get-or to get)
open import stimer-bank.Bank using (idle-timer)
open import proofs.Equality
open import proofs.Numbers using (+-suc; +-zero)

module _ {A : Set} (f : A → Bool) (d : A) where
  none-changed : (k : ℕ) (xs : List A) → ((i : ℕ) → i < length xs → f (get xs i d) ≡ true) → changed f k xs ≡ []
  none-changed k [] idle = refl
  none-changed k (x ∷ xs) idle rewrite idle 0 tt = none-changed (suc k) xs λ i → idle (suc i)

  last-changed : (k : ℕ) (xs : List A) (j : ℕ) (x : A) → j < length xs → f x ≡ false
    → ((i : ℕ) → j ≤ i → i < length xs → f (get xs i d) ≡ true) → changed f k (set xs j x) ≡ changed f k xs ++ (k + j , x) ∷ []
  last-changed k (y ∷ xs) zero x less e idle
    rewrite e | idle 0 tt tt | none-changed (suc k) xs (λ i → idle (suc i) tt) | +-zero k = refl
  last-changed k (y ∷ xs) (suc j) x less e idle
    rewrite last-changed (suc k) xs j x less e (λ i → idle (suc i)) | +-suc k j = by (f y)
    where
    rest = changed f (suc k) xs
    by : (b : Bool) → (if b then rest ++ (suc (k + j) , x) ∷ [] else (k , y) ∷ rest ++ (suc (k + j) , x) ∷ [])
      ≡ (if b then rest else (k , y) ∷ rest) ++ (suc (k + j) , x) ∷ []
    by true = refl
    by false = refl

saved-last : a-last-change-is-saved-last
saved-last xs j x less e idle = last-changed is-idle idle-timer 0 xs j x less e idle
