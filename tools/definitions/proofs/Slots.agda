{-# OPTIONS --safe #-}
-- The type in a message slot. It is abstract, so that Agda does not compare two of them by computing products with
-- 0x1000000.
module proofs.Slots where

open import Prelude
open import arrayvec.ArrayVec using (ArrayVec)
open import board-terms.declared.messages.Message using (Message; FromPort; FromTimer)
open import gpa-space.Page using (with-slot)
open import lib.ListN using (drop; length; replicate; take) renaming (get-or to get)
open import message-queues.Image using (FitsSlot; image; slot-type; type-of)
open import proofs.Equality
open import proofs.Lists
open import proofs.Numbers

-- a message that may be queued, as in synic-board.Sound
IsQueued : Message → Set
IsQueued m = type-of m ≢ 0 × type-of m < 4294967296 × FitsSlot m

combined : ℕ → ℕ → ℕ → ℕ → ℕ
combined a b c d = a + 0x100 * b + 0x10000 * c + 0x1000000 * d

combined-same : {a b c d a′ b′ c′ d′ : ℕ} → a ≡ a′ → b ≡ b′ → c ≡ c′ → d ≡ d′ → combined a b c d ≡ combined a′ b′ c′ d′
combined-same refl refl refl refl = refl

combined-zero : (a b c d : ℕ) → combined a b c d ≡ 0 → a ≡ 0 × b ≡ 0 × c ≡ 0 × d ≡ 0
combined-zero a b c d e =
  let (abc , d′) = zeros (a + 0x100 * b + 0x10000 * c) (0x1000000 * d) e
      (ab , c′) = zeros (a + 0x100 * b) (0x10000 * c) abc
      (a′ , b′) = zeros a (0x100 * b) ab in
  a′ , factor 0x100 b (λ ()) b′ , factor 0x10000 c (λ ()) c′ , factor 0x1000000 d (λ ()) d′

minus : (a b : ℕ) → a ≤ b → a + (b - a) ≡ b
minus zero b p = refl
minus (suc a) (suc b) p = cong suc (minus a b p)

padded : (n : ℕ) (xs : List ℕ) → length xs ≤ n → length (xs ++ replicate (n - length xs) 0) ≡ n
padded n xs p = trans (length-++ xs _) (trans (cong (length xs +_) (length-replicate (n - length xs) 0)) (minus (length xs) n p))

length-image : (m : Message) (more : Bool) (moment : ℕ) → FitsSlot m → length (image m more moment) ≡ 256
length-image (FromPort ticket port kind payload) more moment p = cong (16 +_) (padded 240 (ArrayVec.items payload) p)
length-image (FromTimer ticket timer expiration) more moment p = refl

-- a slot within its page
within : (i : ℕ) (page : List ℕ) → i < 16 → length page ≡ 4096 → 256 * i + 256 ≤ length page
within i page p e = subst (256 * i + 256 ≤_) (sym e) (row-above 256 i 16 p)

-- a slot in a page, as a list in a list
slot-in : (page : List ℕ) (i : ℕ) (slot : List ℕ) → length slot ≡ 256
  → with-slot page i slot ≡ take (256 * i) page ++ slot ++ drop (256 * i + length slot) page
slot-in page i slot e = cong (λ n → take (256 * i) page ++ slot ++ drop (256 * i + n) page) (sym e)

fitting : (page : List ℕ) (i : ℕ) (slot : List ℕ) → length slot ≡ 256 → i < 16 → length page ≡ 4096
  → 256 * i + length slot ≤ length page
fitting page i slot e p f = subst (λ n → 256 * i + n ≤ length page) (sym e) (within i page p f)

length-slot : (page : List ℕ) (i : ℕ) (slot : List ℕ) → length slot ≡ 256 → i < 16 → length page ≡ 4096
  → length (with-slot page i slot) ≡ 4096
length-slot page i slot e p f = trans (cong length (slot-in page i slot e))
  (trans (splice-length (256 * i) page slot (fitting page i slot e p f)) f)

byte-of-slot : (page : List ℕ) (i : ℕ) (slot : List ℕ) (k : ℕ) → length slot ≡ 256 → i < 16 → length page ≡ 4096
  → k < 256 → get (with-slot page i slot) (256 * i + k) 0 ≡ get slot k 0
byte-of-slot page i slot k e p f h = splice-in (256 * i) k page slot (drop (256 * i + 256) page) 0
  (subst (k <_) (sym e) h) (≤-trans (256 * i) (256 * i + 256) (length page) (≤-plus (256 * i) 256) (within i page p f))

byte-apart : (page : List ℕ) (i j : ℕ) (slot : List ℕ) (k : ℕ) → length slot ≡ 256 → i < 16 → length page ≡ 4096
  → j ≢ i → k < 256 → get (with-slot page i slot) (256 * j + k) 0 ≡ get page (256 * j + k) 0
byte-apart page i j slot k e p f apart h = trans (cong (λ xs → get xs (256 * j + k) 0) (slot-in page i slot e))
  (splice-out (256 * i) (256 * j + k) page slot 0 (side (compared j i)) (fitting page i slot e p f))
  where
  side : j < i ⊎ (j ≡ i ⊎ i < j) → (256 * j + k < 256 * i) ⊎ (256 * i + length slot ≤ 256 * j + k)
  side (inl l) = inl (row-below 256 j i k h l)
  side (inr (inl same)) = absurd (apart same)
  side (inr (inr l)) = inr (subst (λ n → 256 * i + n ≤ 256 * j + k) (sym e) (≤-trans (256 * i + 256) (256 * j)
    (256 * j + k) (row-above 256 i j l) (≤-plus (256 * j) k)))

-- the first bytes of an image are the digits of its type
four : (m : Message) (more : Bool) (moment : ℕ) → let bytes = image m more moment in let n = type-of m in
  get bytes 0 0 ≡ n % 256 × get bytes 1 0 ≡ n / 256 % 256 × get bytes 2 0 ≡ n / 256 / 256 % 256
  × get bytes 3 0 ≡ n / 256 / 256 / 256 % 256
four (FromPort ticket port kind payload) more moment = refl , refl , refl , refl
four (FromTimer ticket timer expiration) more moment = refl , refl , refl , refl

abstract
  kind-at : List ℕ → ℕ → ℕ
  kind-at = slot-type

  kind-of-empty : (page : List ℕ) (i : ℕ) → (slot-type page i == 0) ≡ true → kind-at page i ≡ 0
  kind-of-empty page i e = same (slot-type page i) 0 e

  kind-of-occupied : (page : List ℕ) (i : ℕ) → (slot-type page i == 0) ≡ false → kind-at page i ≢ 0
  kind-of-occupied page i e f = different (trans (sym (cong (_== 0) f)) e)
    where
    different : true ≢ false
    different ()

  kind-same : (page other : List ℕ) (i : ℕ) → ((k : ℕ) → k < 4 → get page (256 * i + k) 0 ≡ get other (256 * i + k) 0)
    → kind-at page i ≡ kind-at other i
  kind-same page other i e = combined-same (e 0 tt) (e 1 tt) (e 2 tt) (e 3 tt)

  kind-of-image : (page : List ℕ) (i : ℕ) (m : Message) (more : Bool) (moment : ℕ) → IsQueued m → i < 16
    → length page ≡ 4096 → kind-at (with-slot page i (image m more moment)) i ≢ 0
  kind-of-image page i m more moment (some , bound , fits) p f e =
    let bytes = image m more moment
        whole = length-image m more moment fits
        byte = λ k h → byte-of-slot page i bytes k whole p f h
        (a , b , c , d) = combined-zero _ _ _ _ e
        (a′ , b′ , c′ , d′) = four m more moment in
    some (digits-zero 255 (type-of m) bound (trans (sym a′) (trans (sym (byte 0 tt)) a))
      (trans (sym b′) (trans (sym (byte 1 tt)) b)) (trans (sym c′) (trans (sym (byte 2 tt)) c))
      (trans (sym d′) (trans (sym (byte 3 tt)) d)))
