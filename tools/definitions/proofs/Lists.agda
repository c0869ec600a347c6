{-# OPTIONS --safe #-}
-- Lists with one element replaced, sums over them, and a list within a list.
module proofs.Lists where

open import Prelude
open import core.List using (cons-option; count-by; filter; filter-map; flat-map; fold; range-with-len; sum-by)
open import lib.ListN using (drop; length; replicate; set; take) renaming (get-or to get)
open import proofs.Equality
open import proofs.Numbers

private
  variable
    A B : Set

length-set : (xs : List A) (k : ℕ) (y : A) → length (set xs k y) ≡ length xs
length-set [] k y = refl
length-set (x ∷ xs) zero y = refl
length-set (x ∷ xs) (suc k) y = cong suc (length-set xs k y)

get-same : (xs : List A) (k : ℕ) (y d : A) → k < length xs → get (set xs k y) k d ≡ y
get-same (x ∷ xs) zero y d p = refl
get-same (x ∷ xs) (suc k) y d p = get-same xs k y d p

get-other : (xs : List A) (j k : ℕ) (y d : A) → j ≢ k → get (set xs k y) j d ≡ get xs j d
get-other [] j k y d p = refl
get-other (x ∷ xs) zero zero y d p = absurd (p refl)
get-other (x ∷ xs) zero (suc k) y d p = refl
get-other (x ∷ xs) (suc j) zero y d p = refl
get-other (x ∷ xs) (suc j) (suc k) y d p = get-other xs j k y d λ e → p (cong suc e)

-- each element after a replacement is the new one or what it was
get-either : (P : A → Set) (xs : List A) (j k : ℕ) (y d : A) → P y → P (get xs j d) → P (get (set xs k y) j d)
get-either P [] j k y d p q = q
get-either P (x ∷ xs) zero zero y d p q = p
get-either P (x ∷ xs) zero (suc k) y d p q = q
get-either P (x ∷ xs) (suc j) zero y d p q = q
get-either P (x ∷ xs) (suc j) (suc k) y d p q = get-either P xs j k y d p q

get-outside : (xs : List A) (k : ℕ) (d : A) → length xs ≤ k → get xs k d ≡ d
get-outside [] k d p = refl
get-outside (x ∷ xs) (suc k) d p = get-outside xs k d p

length-map : (f : A → B) (xs : List A) → length (map f xs) ≡ length xs
length-map f [] = refl
length-map f (x ∷ xs) = cong suc (length-map f xs)

length-range : (a n : ℕ) → length (range-with-len a n) ≡ n
length-range a zero = refl
length-range a (suc n) = cong suc (length-range (a + 1) n)

length-replicate : (n : ℕ) (x : A) → length (replicate n x) ≡ n
length-replicate zero x = refl
length-replicate (suc n) x = cong suc (length-replicate n x)

length-++ : (xs ys : List A) → length (xs ++ ys) ≡ length xs + length ys
length-++ [] ys = refl
length-++ (x ∷ xs) ys = cong suc (length-++ xs ys)

get-replicate : (n k : ℕ) (x d : A) → k < n → get (replicate n x) k d ≡ x
get-replicate (suc n) zero x d p = refl
get-replicate (suc n) (suc k) x d p = get-replicate n k x d p

get-default : (n k : ℕ) (d : A) → get (replicate n d) k d ≡ d
get-default zero k d = refl
get-default (suc n) zero d = refl
get-default (suc n) (suc k) d = get-default n k d

-- sums

total : (A → ℕ) → List A → ℕ
total w [] = 0
total w (x ∷ xs) = w x + total w xs

total-set : (w : A → ℕ) (xs : List A) (k : ℕ) (y d : A) → k < length xs
  → total w (set xs k y) + w (get xs k d) ≡ total w xs + w y
total-set w (x ∷ xs) zero y d p = solve (w x ∷ w y ∷ total w xs ∷ [])
  (var 1 ⊕ var 2 ⊕ var 0) (var 0 ⊕ var 2 ⊕ var 1) refl
total-set w (x ∷ xs) (suc k) y d p = trans (+-assoc (w x) _ _)
  (trans (cong (w x +_) (total-set w xs k y d p)) (sym (+-assoc (w x) _ _)))

fold-from : (f : A → ℕ) (a : ℕ) (xs : List A) → fold (λ a x → a + f x) a xs ≡ a + total f xs
fold-from f a [] = sym (+-zero a)
fold-from f a (x ∷ xs) = trans (fold-from f (a + f x) xs) (+-assoc a (f x) (total f xs))

one : (A → Bool) → A → ℕ
one p x = cond (p x) 1 0

counted : (p : A → Bool) (xs : List A) → count-by p xs ≡ total (one p) xs
counted p xs = fold-from (one p) 0 xs

total-++ : (w : A → ℕ) (xs ys : List A) → total w (xs ++ ys) ≡ total w xs + total w ys
total-++ w [] ys = refl
total-++ w (x ∷ xs) ys = trans (cong (w x +_) (total-++ w xs ys)) (sym (+-assoc (w x) _ _))

total-flat : (w : B → ℕ) (f : A → List B) (xs : List A) → total w (flat-map f xs) ≡ total (λ x → total w (f x)) xs
total-flat w f [] = refl
total-flat w f (x ∷ xs) = trans (total-++ w (f x) (flat-map f xs)) (cong (total w (f x) +_) (total-flat w f xs))

total-some : (w : A → ℕ) (xs : List (Option A))
  → total w (filter-map (λ x → x) xs) ≡ total (λ o → total w (cons-option o [])) xs
total-some w [] = refl
total-some w (None ∷ xs) = total-some w xs
total-some w (Some x ∷ xs) = cong₂ _+_ (sym (+-zero (w x))) (total-some w xs)

total-none : (w : A → ℕ) (n : ℕ) (x : A) → w x ≡ 0 → total w (replicate n x) ≡ 0
total-none w zero x e = refl
total-none w (suc n) x e = cong₂ _+_ e (total-none w n x e)

-- a list at place a of another one, in place of what is there

splice-out : (a m : ℕ) (xs ys : List A) (d : A) → m < a ⊎ a + length ys ≤ m → a + length ys ≤ length xs
  → get (take a xs ++ ys ++ drop (a + length ys) xs) m d ≡ get xs m d
splice-out zero m xs [] d p q = refl
splice-out zero m (x ∷ xs) (y ∷ ys) d (inl ()) q
splice-out zero zero (x ∷ xs) (y ∷ ys) d (inr ()) q
splice-out zero (suc m) (x ∷ xs) (y ∷ ys) d (inr p) q = splice-out zero m xs ys d (inr p) q
splice-out (suc a) zero (x ∷ xs) ys d p q = refl
splice-out (suc a) (suc m) (x ∷ xs) ys d p q = splice-out a m xs ys d p q

splice-in : (a k : ℕ) (xs ys zs : List A) (d : A) → k < length ys → a ≤ length xs
  → get (take a xs ++ ys ++ zs) (a + k) d ≡ get ys k d
splice-in zero zero xs (y ∷ ys) zs d p q = refl
splice-in zero (suc k) xs (y ∷ ys) zs d p q = splice-in zero k xs ys zs d p tt
splice-in (suc a) k (x ∷ xs) ys zs d p q = splice-in a k xs ys zs d p q

splice-length : (a : ℕ) (xs ys : List A) → a + length ys ≤ length xs
  → length (take a xs ++ ys ++ drop (a + length ys) xs) ≡ length xs
splice-length zero xs [] q = refl
splice-length zero (x ∷ xs) (y ∷ ys) q = cong suc (splice-length zero xs ys q)
splice-length (suc a) (x ∷ xs) ys q = cong suc (splice-length a xs ys q)
