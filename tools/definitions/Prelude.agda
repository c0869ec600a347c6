{-# OPTIONS --safe #-}
-- The words of the toolchain's library that are not translated. This is all that is written by hand; each part names
-- the module of the library whose words it gives.
module Prelude where

open import Agda.Builtin.Nat using (div-helper; mod-helper)
open import Agda.Builtin.Nat public using (zero; suc)
  renaming (Nat to ℕ; _+_ to infixl 65 _+_; _-_ to infixl 65 _-_; _*_ to infixl 70 _*_; _==_ to infix 40 _==_; _<_ to ltb)
open import Agda.Builtin.Bool public
open import Agda.Builtin.List public using (List; []) renaming (_∷_ to infixr 67 _∷_)
open import Agda.Builtin.String using (String; primStringToList)
open import Agda.Builtin.Char using (primCharToNat)
open import Agda.Builtin.Equality public using (_≡_; refl)
open import Agda.Builtin.Unit public using (⊤; tt)
open import Agda.Builtin.Sigma public using (Σ) renaming (_,_ to infixr 1 _,,_; fst to witness; snd to proof)

infixl 70 _/_ _%_
infixr 75 _^_
infixr 65 _++_
infix 50 _≤_ _<_
infixl 35 _&&_
infixl 30 _||_
infix 4 _≢_
infixr 3 _×_
infixr 2 _⊎_
infix 1 _↔_
infixr 1 _,_
infixr 0 if_then_else_ Σ-syntax

-- An expression that is used several times is computed once.
share : {A B : Set} → A → (A → B) → B
share x f = f x
{-# NOINLINE share #-}

-- mathlib.Core.Bool, core.Bool
if_then_else_ cond : {A : Set} → Bool → A → A → A
if true then x else y = x
if false then x else y = y
cond = if_then_else_

not : Bool → Bool
not true = false
not false = true

_&&_ _||_ : Bool → Bool → Bool
true && b = b
false && b = false
true || b = true
false || b = b

-- Prim.Native.Nat, lib.Dec: n / 0 is 0, and n % 0 is n
eqb leb : ℕ → ℕ → Bool
eqb = _==_
leb m n = ltb m (suc n)

_/_ _%_ _^_ min max : ℕ → ℕ → ℕ
n / zero = 0
n / suc m = div-helper 0 m n m
n % zero = n
n % suc m = mod-helper 0 m n m
n ^ zero = 1
n ^ suc k = n * n ^ k
min m n = if ltb m n then m else n
max m n = if ltb m n then n else m

-- lib.Bits, by binary digits: the first number bounds how many there are
digits : (ℕ → ℕ → ℕ) → ℕ → ℕ → ℕ → ℕ
digits f zero a b = 0
digits f (suc k) zero zero = 0
digits f (suc k) a b = f (a % 2) (b % 2) + 2 * digits f k (a / 2) (b / 2)

bit-and bit-or bit-xor : ℕ → ℕ → ℕ
bit-and a b = digits _*_ (a + b) a b
bit-or a b = digits (λ x y → x + y - x * y) (a + b) a b
bit-xor a b = digits (λ x y → (x + y) % 2) (a + b) a b

-- mathlib.Core.List
_++_ : {A : Set} → List A → List A → List A
[] ++ ys = ys
(x ∷ xs) ++ ys = x ∷ (xs ++ ys)

map : {A B : Set} → (A → B) → List A → List B
map f [] = []
map f (x ∷ xs) = f x ∷ map f xs

-- lib.Chars: the numbers of a text's characters
Text : Set
Text = String

codes : Text → List ℕ
codes s = map primCharToNat (primStringToList s)

-- core.declared.option, core.declared.result
data Option (A : Set) : Set where
  None : Option A
  Some : A → Option A

data Result (A B : Set) : Set where
  Ok : A → Result A B
  Err : B → Result A B

-- mir.Syntax, core.Int: a width in bytes, and numbers of that width, the lowest byte first
Width : Set
Width = ℕ

w64 : Width
w64 = 8

to-le-bytes : Width → ℕ → List ℕ
to-le-bytes zero n = []
to-le-bytes (suc w) n = n % 256 ∷ to-le-bytes w (n / 256)

from-le-bytes : Width → List ℕ → ℕ
from-le-bytes zero bytes = 0
from-le-bytes (suc w) [] = 0
from-le-bytes (suc w) (b ∷ bytes) = b + 256 * from-le-bytes w bytes

-- std_alloc.Vec: its items
record Vec (A : Set) : Set where
  field
    items : List A

vec-items : {A : Set} → Vec A → List A
vec-items = Vec.items

vec-len : {A : Set} → Vec A → ℕ
vec-len v = count (Vec.items v)
  where
  count : {A : Set} → List A → ℕ
  count [] = 0
  count (x ∷ xs) = suc (count xs)

-- core.FinSet, of numbers: the members in ascending order
FinSet : Set
FinSet = List ℕ

set-empty : FinSet
set-empty = []

set-contains : FinSet → ℕ → Bool
set-contains [] v = false
set-contains (x ∷ xs) v = x == v || set-contains xs v

set-insert : FinSet → ℕ → FinSet
set-insert [] v = v ∷ []
set-insert (x ∷ xs) v = if ltb v x then v ∷ x ∷ xs else if x == v then x ∷ xs else x ∷ set-insert xs v

set-retain : FinSet → (ℕ → Bool) → FinSet
set-retain [] p = []
set-retain (x ∷ xs) p = if p x then x ∷ set-retain xs p else set-retain xs p

set-remove : FinSet → ℕ → FinSet
set-remove s v = set-retain s λ x → not (x == v)

set-union set-intersection set-difference : FinSet → FinSet → FinSet
set-union s [] = s
set-union s (x ∷ xs) = set-union (set-insert s x) xs
set-intersection s t = set-retain s (set-contains t)
set-difference s t = set-retain s λ x → not (set-contains t x)

set-items : FinSet → List ℕ
set-items s = s

-- Tuples, and the pairs of a witness and a proof. A tuple of three is a pair whose second part is a pair.
record _×_ (A B : Set) : Set where
  constructor _,_
  field
    fst : A
    snd : B
open _×_ public

Σ-syntax : (A : Set) → (A → Set) → Set
Σ-syntax = Σ

syntax Σ-syntax A (λ x → B) = Σ[ x ∈ A ] B

-- Propositions: Prim.Native.Nat, mathlib.Core.Path, mathlib.Core.Logic
data ⊥ : Set where

data _⊎_ (A B : Set) : Set where
  inl : A → A ⊎ B
  inr : B → A ⊎ B

_↔_ : Set → Set → Set
A ↔ B = (A → B) × (B → A)

_≢_ : {A : Set} → A → A → Set
x ≢ y = x ≡ y → ⊥

T : Bool → Set
T true = ⊤
T false = ⊥

_≤_ _<_ : ℕ → ℕ → Set
m ≤ n = T (leb m n)
m < n = T (ltb m n)

IsPrefix : {A : Set} → List A → List A → Set
IsPrefix xs ys = Σ[ zs ∈ List _ ] xs ++ zs ≡ ys
