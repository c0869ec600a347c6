{-# OPTIONS --safe #-}
-- A send is one assert after another, at each processor of its mask.
module proofs.Sends where

open import Prelude
open import board-terms.declared.notices.Notice using (Notice)
open import board-terms.declared.refusal.Refusal using (NoSuchProcessor)
open import core.Int using (bit-at)
open import law-board.Sends using (SendsAlike; asserts-below)
open import law-board.Theorems using (a-send-asserts-at-each-processor)
open import lapic-core.Apic using (request)
open import lib.ListN using (length)
open import synic-board.Effects using (Effect; after; answered; nothing; refused)
open import synic-board.Interrupts using (is-requested; requested)
open import synic-board.Run using (run-of)
open import synic-board.Sending using (sent-below; sent-to)
open import synic-board.State using (State; apic-of; processors; with-apic)
open import synic-board.Step using (step)
open import synic-board.declared.event.Event using (Event; Assert; Send)
open import synic-board.declared.event.Reply using (Reply)
open import proofs.Equality
open import proofs.Lists using (length-set)
open import proofs.Numbers hiding (same)

-- a run without its replies
Ran : State → List Event → Effect
Ran s events = fst (run-of s events) , snd (snd (run-of s events))

++-nothing : {A : Set} (xs : List A) → xs ++ [] ≡ xs
++-nothing [] = refl
++-nothing (x ∷ xs) = cong (x ∷_) (++-nothing xs)

++-assoc : {A : Set} (xs ys zs : List A) → (xs ++ ys) ++ zs ≡ xs ++ (ys ++ zs)
++-assoc [] ys zs = refl
++-assoc (x ∷ xs) ys zs = cong (x ∷_) (++-assoc xs ys zs)

ran-after : (s : State) (es fs : List Event) → Ran s (es ++ fs) ≡ after (Ran s es) (Ran (fst (run-of s es)) fs)
ran-after s [] fs = refl
ran-after s (e ∷ es) fs = trans (cong (λ r → fst r , notices ++ snd r) (ran-after now es fs))
  (cong (λ ns → fst (run-of (fst (run-of now es)) fs) , ns) (sym (++-assoc notices _ _)))
  where
  now = fst (step s e)
  notices = snd (snd (step s e))

-- a number below a power of two has no bit from there on

small : (n m : ℕ) → n < suc m → n / suc m ≡ 0
small n m less = by (n / suc m) refl
  where
  by : (q : ℕ) → n / suc m ≡ q → n / suc m ≡ 0
  by zero e = e
  by (suc q) e = absurd (not-below (suc m) (q * suc m + n % suc m) (subst (_< suc m) sum less))
    where
    sum : n ≡ suc m + (q * suc m + n % suc m)
    sum = trans (quotient n m) (trans (cong (λ q → n % suc m + q * suc m) e)
      (trans (+-comm (n % suc m) (suc m + q * suc m)) (+-assoc (suc m) (q * suc m) (n % suc m))))

power : (p : ℕ) → Σ[ k ∈ ℕ ] 2 ^ p ≡ suc k
power zero = 0 ,, refl
power (suc p) = witness (power p) + (suc (witness (power p)) + 0) ,, cong (2 *_) (proof (power p))

double : (a b : ℕ) → a ≤ b → 2 * a ≤ 2 * b
double a b p = subst (_≤ 2 * b) (cong (a +_) (sym (+-zero a))) (subst (a + a ≤_) (cong (b +_) (sym (+-zero b)))
  (≤-trans (a + a) (a + b) (b + b) (add-≤ a a b p) (subst (_≤ b + b) (+-comm b a) (add-≤ b a b p))))

powers : (n p : ℕ) → n ≤ p → 2 ^ n ≤ 2 ^ p
powers zero p le = subst (1 ≤_) (sym (proof (power p))) tt
powers (suc n) (suc p) le = double (2 ^ n) (2 ^ p) (powers n p le)

no-bit : (n p mask : ℕ) → mask < 2 ^ n → n ≤ p → bit-at mask p ≡ 0
no-bit n p mask less le = cong (_% 2) (subst (λ x → mask / x ≡ 0) (sym (proof (power p)))
  (small mask (witness (power p)) (subst (mask <_) (proof (power p)) (<-≤ mask (2 ^ n) (2 ^ p) less (powers n p le)))))

has-processor : (n p mask : ℕ) → mask < 2 ^ n → (bit-at mask p == 1) ≡ true → p < n
has-processor n p mask less e = by (below-or p n)
  where
  never : {b : ℕ} → b ≡ 0 → (b == 1) ≡ true → ⊥
  never refl ()
  by : p < n ⊎ n ≤ p → p < n
  by (inl here) = here
  by (inr le) = absurd (never (no-bit n p mask less le) e)

-- a request leaves the number of processors

requested-count : (s : State) (p v : ℕ) → processors (fst (requested s p v)) ≡ processors s
requested-count s p v = by (is-requested s p v)
  where
  by : (b : Bool) → processors (fst (if b then nothing s else (with-apic s p (request (apic-of s p) v) , Notice.Requested p v ∷ [])))
    ≡ processors s
  by true = refl
  by false = length-set (State.apics s) p (request (apic-of s p) v)

sent-count : (s : State) (v mask n : ℕ) → processors (fst (sent-below s v mask n)) ≡ processors s
sent-count s v mask zero = refl
sent-count s v mask (suc p) = trans (by (bit-at mask p == 1)) (sent-count s v mask p)
  where
  now = fst (sent-below s v mask p)
  by : (b : Bool) → processors (fst (if b then requested now p v else nothing now)) ≡ processors now
  by true = requested-count now p v
  by false = refl

-- the asserts

truth : {b : Bool} → T b → b ≡ true
truth {true} t = refl

asserted : (s : State) (p v : ℕ) (b : Bool) → (b ≡ true → p < processors s)
  → Ran s (if b then Assert p v ∷ [] else []) ≡ (if b then requested s p v else nothing s)
asserted s p v false here = refl
asserted s p v true here = trans (cong (λ b → ended (if b then answered Reply.Done (requested s p v) else refused s NoSuchProcessor)) (truth (here refl)))
  (cong (fst (requested s p v) ,_) (++-nothing (snd (requested s p v))))
  where
  ended : State × Reply × List Notice → Effect
  ended o = fst o , snd (snd o) ++ []

all-asserted : (s : State) (v mask n : ℕ) → mask < 2 ^ processors s → Ran s (asserts-below v mask n) ≡ sent-below s v mask n
all-asserted s v mask zero less = refl
all-asserted s v mask (suc p) less = trans (ran-after s (asserts-below v mask p) last)
  (trans (cong (λ e → after e (Ran (fst e) last)) (all-asserted s v mask p less))
    (cong (after (sent-below s v mask p)) (asserted (fst (sent-below s v mask p)) p v (bit-at mask p == 1)
      λ e → subst (p <_) (sym (sent-count s v mask p)) (has-processor (processors s) p mask less e))))
  where
  last = if bit-at mask p == 1 then Assert p v ∷ [] else []

if-true : {A : Set} {b : Bool} {x y : A} → b ≡ true → (if b then x else y) ≡ x
if-true refl = refl

-- for any effect: Agda would unfold that of 64 processors
alike : (s : State) (asserts : List Event) (e : Effect) (o : State × Reply × List Notice) → o ≡ answered Reply.Done e
  → Ran s asserts ≡ e → fst o ≡ fst (run-of s asserts) × snd (snd o) ≡ snd (snd (run-of s asserts))
alike s asserts e o refl refl = refl , refl

sends : a-send-asserts-at-each-processor
sends s v mask less = alike s (asserts-below v mask 64) (sent-below s v mask 64) (step s (Send v mask))
  (if-true {b = ltb mask (2 ^ processors s)} {x = answered Reply.Done (sent-below s v mask 64)} {y = refused s NoSuchProcessor}
    (truth less))
  (all-asserted s v mask 64 less)
