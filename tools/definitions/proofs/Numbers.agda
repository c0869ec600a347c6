{-# OPTIONS --safe #-}
-- Sums, order, and the places of a table with rows of one width. Widths are variables here: Agda would count a number
-- such as 256 down by one.
module proofs.Numbers where

open import Agda.Builtin.Nat using (div-helper; mod-helper)
open import Prelude
open import lib.ListN using (get-or)
open import proofs.Equality

absurd : {A : Set} → ⊥ → A
absurd ()

-- sums

+-zero : (n : ℕ) → n + 0 ≡ n
+-zero zero = refl
+-zero (suc n) = cong suc (+-zero n)

+-suc : (m n : ℕ) → m + suc n ≡ suc (m + n)
+-suc zero n = refl
+-suc (suc m) n = cong suc (+-suc m n)

+-comm : (m n : ℕ) → m + n ≡ n + m
+-comm zero n = sym (+-zero n)
+-comm (suc m) n = trans (cong suc (+-comm m n)) (sym (+-suc n m))

+-assoc : (a b c : ℕ) → (a + b) + c ≡ a + (b + c)
+-assoc zero b c = refl
+-assoc (suc a) b c = cong suc (+-assoc a b c)

cancel : (k m n : ℕ) → k + m ≡ k + n → m ≡ n
cancel zero m n e = e
cancel (suc k) m n e = cancel k m n (pred e)
  where
  pred : {a b : ℕ} → suc a ≡ suc b → a ≡ b
  pred refl = refl

cancel-right : (m n k : ℕ) → m + k ≡ n + k → m ≡ n
cancel-right m n k e = cancel k m n (trans (+-comm k m) (trans e (+-comm n k)))

exchange : (a b c d : ℕ) → (a + b) + (c + d) ≡ (a + c) + (b + d)
exchange a b c d = trans (+-assoc a b (c + d)) (trans (cong (a +_) inner) (sym (+-assoc a c (b + d))))
  where
  inner : b + (c + d) ≡ c + (b + d)
  inner = trans (sym (+-assoc b c d)) (trans (cong (_+ d) (+-comm b c)) (+-assoc c b d))

*-zero : (n : ℕ) → n * 0 ≡ 0
*-zero zero = refl
*-zero (suc n) = *-zero n

*-suc : (m n : ℕ) → m * suc n ≡ m + m * n
*-suc zero n = refl
*-suc (suc m) n = cong suc (trans (cong (n +_) (*-suc m n)) (trans (sym (+-assoc n m (m * n)))
  (trans (cong (_+ m * n) (+-comm n m)) (+-assoc m n (m * n)))))

*-plus : (a b x : ℕ) → (a + b) * x ≡ a * x + b * x
*-plus zero b x = refl
*-plus (suc a) b x = trans (cong (x +_) (*-plus a b x)) (sym (+-assoc x (a * x) (b * x)))

-- Two sums are equal if each variable is in both as often.
data Sum : Set where
  var : ℕ → Sum
  none : Sum
  _⊕_ : Sum → Sum → Sum
infixl 60 _⊕_

value : List ℕ → Sum → ℕ
value xs (var k) = get-or xs k 0
value xs none = 0
value xs (a ⊕ b) = value xs a + value xs b

unit : ℕ → List ℕ
unit zero = 1 ∷ []
unit (suc k) = 0 ∷ unit k

plus : List ℕ → List ℕ → List ℕ
plus [] ds = ds
plus (c ∷ cs) [] = c ∷ cs
plus (c ∷ cs) (d ∷ ds) = (c + d) ∷ plus cs ds

counts : Sum → List ℕ
counts (var k) = unit k
counts none = []
counts (a ⊕ b) = plus (counts a) (counts b)

dot : List ℕ → List ℕ → ℕ
dot [] xs = 0
dot (c ∷ cs) [] = 0
dot (c ∷ cs) (x ∷ xs) = c * x + dot cs xs

dot-unit : (k : ℕ) (xs : List ℕ) → dot (unit k) xs ≡ get-or xs k 0
dot-unit zero [] = refl
dot-unit zero (x ∷ xs) = trans (+-zero (x + 0)) (+-zero x)
dot-unit (suc k) [] = refl
dot-unit (suc k) (x ∷ xs) = dot-unit k xs

dot-plus : (cs ds xs : List ℕ) → dot (plus cs ds) xs ≡ dot cs xs + dot ds xs
dot-plus [] ds xs = refl
dot-plus (c ∷ cs) [] xs = sym (+-zero (dot (c ∷ cs) xs))
dot-plus (c ∷ cs) (d ∷ ds) [] = refl
dot-plus (c ∷ cs) (d ∷ ds) (x ∷ xs) =
  trans (cong₂ _+_ (*-plus c d x) (dot-plus cs ds xs)) (exchange (c * x) (d * x) (dot cs xs) (dot ds xs))

dot-counts : (xs : List ℕ) (a : Sum) → dot (counts a) xs ≡ value xs a
dot-counts xs (var k) = dot-unit k xs
dot-counts xs none = refl
dot-counts xs (a ⊕ b) = trans (dot-plus (counts a) (counts b) xs) (cong₂ _+_ (dot-counts xs a) (dot-counts xs b))

solve : (xs : List ℕ) (a b : Sum) → counts a ≡ counts b → value xs a ≡ value xs b
solve xs a b e = trans (sym (dot-counts xs a)) (trans (cong (λ cs → dot cs xs) e) (dot-counts xs b))

-- order

<-plus : (i w x : ℕ) → i < w → i < w + x
<-plus zero (suc w) x p = tt
<-plus (suc i) (suc w) x p = <-plus i w x p

≤-plus : (w x : ℕ) → w ≤ w + x
≤-plus zero x = tt
≤-plus (suc w) x = ≤-plus w x

add-< : (w a b : ℕ) → a < b → w + a < w + b
add-< zero a b p = p
add-< (suc w) a b p = add-< w a b p

sub-< : (w a b : ℕ) → w + a < w + b → a < b
sub-< zero a b p = p
sub-< (suc w) a b p = sub-< w a b p

add-≤ : (w a b : ℕ) → a ≤ b → w + a ≤ w + b
add-≤ zero a b p = p
add-≤ (suc w) a b p = add-≤ w a b p

not-below : (w x : ℕ) → w + x < w → ⊥
not-below (suc w) x p = not-below w x p

<-≤ : (a b c : ℕ) → a < b → b ≤ c → a < c
<-≤ zero (suc b) (suc c) p q = tt
<-≤ (suc a) (suc b) (suc c) p q = <-≤ a b c p q

≤-trans : (a b c : ℕ) → a ≤ b → b ≤ c → a ≤ c
≤-trans zero b c p q = tt
≤-trans (suc a) (suc b) (suc c) p q = ≤-trans a b c p q

≤-refl : (a : ℕ) → a ≤ a
≤-refl zero = tt
≤-refl (suc a) = ≤-refl a

below-not : (a b : ℕ) → a < b → b ≤ a → ⊥
below-not zero (suc b) p ()
below-not (suc a) (suc b) p q = below-not a b p q

≤-of : (a b : ℕ) → a ≡ b → a ≤ b
≤-of a .a refl = ≤-refl a

is : (b : Bool) → b ≡ true → T b
is .true refl = tt

same : (a b : ℕ) → (a == b) ≡ true → a ≡ b
same zero zero e = refl
same (suc a) (suc b) e = cong suc (same a b e)

compared : (a b : ℕ) → a < b ⊎ (a ≡ b ⊎ b < a)
compared zero zero = inr (inl refl)
compared zero (suc b) = inl tt
compared (suc a) zero = inr (inr tt)
compared (suc a) (suc b) with compared a b
... | inl p = inl p
... | inr (inl e) = inr (inl (cong suc e))
... | inr (inr p) = inr (inr p)

below-or : (a b : ℕ) → a < b ⊎ b ≤ a
below-or zero zero = inr tt
below-or zero (suc b) = inl tt
below-or (suc a) zero = inr tt
below-or (suc a) (suc b) = below-or a b

zeros : (a b : ℕ) → a + b ≡ 0 → a ≡ 0 × b ≡ 0
zeros zero b e = refl , e

factor : (c x : ℕ) → c ≢ 0 → c * x ≡ 0 → x ≡ 0
factor zero x p e = absurd (p refl)
factor (suc c) x p e = fst (zeros x (c * x) e)

-- rows of width w

row-suc : (w p i : ℕ) → w * suc p + i ≡ w + (w * p + i)
row-suc w p i = trans (cong (_+ i) (*-suc w p)) (+-assoc w (w * p) i)

row-zero : (w i : ℕ) → w * 0 + i ≡ i
row-zero w i = cong (_+ i) (*-zero w)

row-below : (w p q i : ℕ) → i < w → p < q → w * p + i < w * q
row-below w zero (suc q) i h p rewrite *-zero w | *-suc w q = <-plus i w (w * q) h
row-below w (suc p) (suc q) i h l rewrite row-suc w p i | *-suc w q = add-< w (w * p + i) (w * q) (row-below w p q i h l)

row-above : (w p q : ℕ) → p < q → w * p + w ≤ w * q
row-above w zero (suc q) l rewrite *-zero w | *-suc w q = ≤-plus w (w * q)
row-above w (suc p) (suc q) l rewrite row-suc w p w | *-suc w q = add-≤ w (w * p + w) (w * q) (row-above w p q l)

row-same : (w p q i j : ℕ) → i < w → j < w → w * p + i ≡ w * q + j → p ≡ q × i ≡ j
row-same w zero zero i j h k e = refl , trans (sym (row-zero w i)) (trans e (row-zero w j))
row-same w zero (suc q) i j h k e =
  absurd (not-below w (w * q + j) (subst (_< w) (trans (sym (row-zero w i)) (trans e (row-suc w q j))) h))
row-same w (suc p) zero i j h k e =
  absurd (not-below w (w * p + i) (subst (_< w) (trans (sym (row-zero w j)) (trans (sym e) (row-suc w p i))) k))
row-same w (suc p) (suc q) i j h k e =
  let inner = row-same w p q i j h k (cancel w _ _ (trans (sym (row-suc w p i)) (trans e (row-suc w q j)))) in
  cong suc (fst inner) , snd inner

row-of : (w a b n : ℕ) → w * a + b < w * n → a < n
row-of w a b zero p rewrite *-zero w = absurd (no (w * a + b) p)
  where
  no : (x : ℕ) → x < 0 → ⊥
  no zero ()
  no (suc x) ()
row-of w zero b (suc n) p = tt
row-of w (suc a) b (suc n) p rewrite row-suc w a b | *-suc w n = row-of w a b n (sub-< w (w * a + b) (w * n) p)

*-≤ : (a b x : ℕ) → a ≤ b → a * x ≤ b * x
*-≤ zero b x p = tt
*-≤ (suc a) (suc b) x p = add-≤ x (a * x) (b * x) (*-≤ a b x p)

-- quotients and remainders

divided : (m d k n : ℕ) → m + d * suc (m + n) + k ≡ mod-helper m (m + n) k n + div-helper d (m + n) k n * suc (m + n)
divided m d zero n = +-zero (m + d * suc (m + n))
divided m d (suc k) zero rewrite +-zero m = trans (+-suc (m + d * suc m) k) (divided zero (suc d) k m)
divided m d (suc k) (suc n) rewrite +-suc m n = trans (+-suc (m + d * suc (suc (m + n))) k) (divided (suc m) d k n)

quotient : (n m : ℕ) → n ≡ n % suc m + n / suc m * suc m
quotient n m = divided 0 0 n m

remainder : (m d n : ℕ) → mod-helper m (m + n) d n ≤ m + n
remainder m zero n = ≤-plus m n
remainder m (suc d) zero rewrite +-zero m = remainder zero d m
remainder m (suc d) (suc n) rewrite +-suc m n = remainder (suc m) d n

remainder-below : (n m : ℕ) → n % suc m < suc m
remainder-below n m = remainder 0 n m

-- a number with four digits, of which the last ones are all zero, is zero
digits-zero : (m n : ℕ) → n < 1 * suc m * suc m * suc m * suc m → n % suc m ≡ 0 → n / suc m % suc m ≡ 0
  → n / suc m / suc m % suc m ≡ 0 → n / suc m / suc m / suc m % suc m ≡ 0 → n ≡ 0
digits-zero m n p a b c d = whole (n / w / w / w / w) (trans (last n a) (cong (_* w) (trans (last (n / w) b)
  (cong (_* w) (trans (last (n / w / w) c) (cong (_* w) (last (n / w / w / w) d)))))))
  where
  w = suc m
  last : (k : ℕ) → k % w ≡ 0 → k ≡ k / w * w
  last k e = trans (quotient k m) (cong (_+ k / w * w) e)
  whole : (q : ℕ) → n ≡ q * w * w * w * w → n ≡ 0
  whole zero e = e
  whole (suc q) e = absurd (below-not n (1 * w * w * w * w) p (subst (1 * w * w * w * w ≤_) (sym e)
    (*-≤ (1 * w * w * w) (suc q * w * w * w) w (*-≤ (1 * w * w) (suc q * w * w) w (*-≤ (1 * w) (suc q * w) w
    (*-≤ 1 (suc q) w tt))))))

-- an even number
halves : (q : ℕ) → 2 * q % 2 ≡ 0 × 2 * q / 2 ≡ q
halves q = even 0 q
  where
  even : (d q : ℕ) → mod-helper 0 1 (2 * q) 1 ≡ 0 × div-helper d 1 (2 * q) 1 ≡ d + q
  even d zero = refl , sym (+-zero d)
  even d (suc q) rewrite +-suc q (q + 0) | +-suc d q = even (suc d) q
