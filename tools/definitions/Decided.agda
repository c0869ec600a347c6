{-# OPTIONS --safe #-}
-- Propositions that a program decides: its answer has a proof, which is erased when the program runs.
module Decided where

open import Prelude
open import core.List using (All)
open import lib.ListN using (length)
open import proofs.Equality using (subst)
open import proofs.Numbers using (absurd) renaming (same to is-same)

private
  variable
    A B : Set

data Decided (A : Set) : Set where
  yes : @0 A → Decided A
  no : @0 (A → ⊥) → Decided A

-- a value of which the proposition holds, if there is one
data Found (R : A → Set) : Set where
  found : (x : A) → @0 R x → Found R
  none : @0 ((x : A) → R x → ⊥) → Found R

infixr 3 _and_ _given_
infixr 4 _implies_

_and_ : Decided A → Decided B → Decided (A × B)
no f and b = no λ p → f (fst p)
yes a and no g = no λ p → g (snd p)
yes a and yes b = yes (a , b)

_implies_ : Decided A → Decided B → Decided (A → B)
no f implies b = yes λ a → absurd (f a)
yes a implies no g = no λ h → g (h a)
yes a implies yes b = yes λ _ → b

refuted : Decided A → Decided (A → ⊥)
refuted (yes a) = no λ f → f a
refuted (no f) = yes f

always : Decided ⊤
always = yes tt

-- numbers and Booleans

holds : (b : Bool) → Decided (T b)
holds true = yes tt
holds false = no λ ()

is : (b v : Bool) → Decided (b ≡ v)
is true true = yes refl
is true false = no λ ()
is false true = no λ ()
is false false = yes refl

@0 is-other : (m n : ℕ) → (m == n) ≡ false → m ≢ n
is-other zero zero ()
is-other zero (suc n) e ()
is-other (suc m) zero e ()
is-other (suc m) (suc n) e refl = is-other m m e refl

same : (m n : ℕ) → Decided (m ≡ n)
same m n = decided (m == n) (is-same m n) (is-other m n)
  where
  decided : (b : Bool) → @0 (b ≡ true → m ≡ n) → @0 (b ≡ false → m ≢ n) → Decided (m ≡ n)
  decided true f g = yes (f refl)
  decided false f g = no (g refl)

-- lists and options

head-of : {x y : A} {xs ys : List A} → x ∷ xs ≡ y ∷ ys → x ≡ y
head-of refl = refl

tail-of : {x y : A} {xs ys : List A} → x ∷ xs ≡ y ∷ ys → xs ≡ ys
tail-of refl = refl

same-list : (xs ys : List ℕ) → Decided (xs ≡ ys)
same-list [] [] = yes refl
same-list [] (y ∷ ys) = no λ ()
same-list (x ∷ xs) [] = no λ ()
same-list (x ∷ xs) (y ∷ ys) with same x y | same-list xs ys
... | yes refl | yes refl = yes refl
... | yes p | no g = no λ e → g (tail-of e)
... | no f | q = no λ e → f (head-of e)

is-not-none : {x : A} → None ≡ Some x → ⊥
is-not-none ()

is-none : (o : Option A) → Decided (o ≡ None)
is-none None = yes refl
is-none (Some x) = no λ ()

of-some : {x y : A} → Some x ≡ Some y → x ≡ y
of-some refl = refl

if-some : {P : A → Set} (o : Option A) → ((x : A) → Decided (P x)) → Decided ((x : A) → o ≡ Some x → P x)
if-some None p = yes λ x ()
if-some {P = P} (Some x) p with p x
... | yes q = yes λ y e → subst P (of-some e) q
... | no f = no λ g → f (g x refl)

all-of : {P : A → Set} {x : A} {xs : List A} → P x → All P xs → All P (x ∷ xs)
all-of a b zero d k<n = a
all-of a b (suc k) d k<n = b k d k<n

each : {P : A → Set} → ((x : A) → Decided (P x)) → (xs : List A) → Decided (All P xs)
each p [] = yes λ k d ()
each {P = P} p (x ∷ xs) with p x | each p xs
... | no f | q = no λ all → f (all 0 x tt)
... | yes a | no g = no λ all → g λ k d k<n → all (suc k) d k<n
... | yes a | yes b = yes (all-of {P = P} a b)

below-of : {P : ℕ → Set} {n : ℕ} → P 0 → ((i : ℕ) → i < n → P (suc i)) → (i : ℕ) → i < suc n → P i
below-of a b zero i<n = a
below-of a b (suc i) i<n = b i i<n

below : {P : ℕ → Set} → ((i : ℕ) → Decided (P i)) → (n : ℕ) → Decided ((i : ℕ) → i < n → P i)
below p zero = yes λ i ()
below {P} p (suc n) with p 0 | below (λ i → p (suc i)) n
... | no f | q = no λ all → f (all 0 tt)
... | yes a | no g = no λ all → g λ i → all (suc i)
... | yes a | yes b = yes (below-of {P} a b)

-- values

_given_ : {R : B → Set} → Decided A → Found R → Found (λ x → A × R x)
no f given r = none λ x p → f (fst p)
yes a given found x p = found x (a , p)
yes a given none g = none λ x p → g x (snd p)

exactly : (y : A) → Found (_≡ y)
exactly y = found y refl
