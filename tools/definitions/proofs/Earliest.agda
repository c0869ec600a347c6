{-# OPTIONS --safe #-}
-- The earliest timer has the alarm, if it is ready: the alarm is the least of some of the deadlines, and this is one.
module proofs.Earliest where

open import Prelude
open import board-terms.Dues using (Dues; earlier; least-below; timer-of)
open import core.List using (range-with-len)
open import core.Option using (option-map; option-map-or)
open import law-alarm.Theorems using (the-earliest-timer-has-the-alarm-if-it-is-ready-some)
open import lib.ListN using (length) renaming (get-or to get)
open import stimer-bank.Bank using (active-due; dues)
open import synic-board.Alarm using (alarm-after; ready-due; ready-dues)
open import synic-board.State using (State; bank-of)
open import synic-board.Timers using (is-ready-for; mode-at)
open import proofs.Equality
open import proofs.Lists using (length-map)
open import proofs.Numbers using (+-assoc; +-zero; <-≤; ≤-refl; ≤-trans)

Least : Set
Least = Option (ℕ × ℕ)

-- the least with one more deadline
more : Least → Option ℕ → ℕ → Least
more o d n = option-map-or (λ d → Some (earlier o (d , n))) d o

-- the least of all deadlines, and of some of them
data _≼_ : Least → Least → Set where
  empty : {o : Least} → o ≼ None
  later : {r r′ : ℕ × ℕ} → fst r ≤ fst r′ → Some r ≼ Some r′

<-is-≤ : (a b : ℕ) → a < b → a ≤ b
<-is-≤ zero b p = tt
<-is-≤ (suc a) (suc b) p = <-is-≤ a b p

not-< : (a b : ℕ) → ltb a b ≡ false → b ≤ a
not-< a zero e = tt
not-< (suc a) (suc b) e = not-< a b e

is-< : (a b : ℕ) → ltb a b ≡ true → a < b
is-< a b e = subst T (sym e) tt

true-< : (a b : ℕ) → a < b → ltb a b ≡ true
true-< zero (suc b) p = refl
true-< (suc a) (suc b) p = true-< a b p

-- the earlier of two is neither later than the one nor than the other
first-of : (r : ℕ × ℕ) (e n : ℕ) → fst (earlier (Some r) (e , n)) ≤ fst r × fst (earlier (Some r) (e , n)) ≤ e
first-of r e n = by (ltb e (fst r)) refl
  where
  by : (b : Bool) → ltb e (fst r) ≡ b → fst (if b then (e , n) else r) ≤ fst r × fst (if b then (e , n) else r) ≤ e
  by true less = <-is-≤ e (fst r) (is-< e (fst r) less) , ≤-refl e
  by false less = ≤-refl (fst r) , not-< e (fst r) less

at-most-both : (r r′ : ℕ × ℕ) (e n : ℕ) → fst r ≤ fst r′ → fst (earlier (Some r) (e , n)) ≤ fst (earlier (Some r′) (e , n))
at-most-both r r′ e n p = by (ltb e (fst r′))
  where
  by : (b : Bool) → fst (earlier (Some r) (e , n)) ≤ fst (if b then (e , n) else r′)
  by true = snd (first-of r e n)
  by false = ≤-trans (fst (earlier (Some r) (e , n))) (fst r) (fst r′) (fst (first-of r e n)) p

more-≼ : (o o′ : Least) (d d′ : Option ℕ) (n : ℕ) → d′ ≡ d ⊎ d′ ≡ None → o ≼ o′ → more o d n ≼ more o′ d′ n
more-≼ o o′ None d′ n (inl refl) p = p
more-≼ o o′ None d′ n (inr refl) p = p
more-≼ o .None (Some e) d′ n (inr refl) empty = empty
more-≼ (Some r) (Some r′) (Some e) d′ n (inr refl) (later p) =
  later (≤-trans (fst (earlier (Some r) (e , n))) (fst r) (fst r′) (fst (first-of r e n)) p)
more-≼ None .None (Some e) d′ n (inl refl) empty = later (≤-refl e)
more-≼ (Some r) .None (Some e) d′ n (inl refl) empty = later (snd (first-of r e n))
more-≼ (Some r) (Some r′) (Some e) d′ n (inl refl) (later p) = later (at-most-both r r′ e n p)

-- a deadline that is among them, and is the least of all, is their least
stays : (o o′ : Least) (d d′ : Option ℕ) (k n due : ℕ) → d′ ≡ d ⊎ d′ ≡ None → o ≼ o′ → (o ≡ Some (due , n) → o′ ≡ Some (due , n))
  → (k ≡ n → d′ ≡ Some due) → more o d k ≡ Some (due , n) → more o′ d′ k ≡ Some (due , n)
stays o o′ None d′ k n due (inl refl) p ih here e = ih e
stays o o′ None d′ k n due (inr refl) p ih here e = ih e
stays None .None (Some x) d′ k n due part empty ih here refl rewrite here refl = refl
stays (Some r) o′ (Some x) d′ k n due part p ih here e = by (ltb x (fst r)) refl n due ih here e part
  where
  alone : (o′ : Least) → Some r ≼ o′ → ltb x (fst r) ≡ true → more o′ (Some x) k ≡ Some (x , k)
  alone None empty less = refl
  alone (Some r′) (later q) less =
    cong (λ b → Some (if b then (x , k) else r′)) (true-< x (fst r′) (<-≤ x (fst r) (fst r′) (is-< x (fst r) less) q))
  by : (b : Bool) → ltb x (fst r) ≡ b → (n due : ℕ) → (Some r ≡ Some (due , n) → o′ ≡ Some (due , n)) → (k ≡ n → d′ ≡ Some due)
    → Some (if b then (x , k) else r) ≡ Some (due , n) → d′ ≡ Some x ⊎ d′ ≡ None → more o′ d′ k ≡ Some (due , n)
  by true less n due ih here refl part = trans (cong (λ d → more o′ d k) (here refl)) (alone o′ p less)
  by false less n due ih here e (inr none) = trans (cong (λ d → more o′ d k) none) (ih e)
  by false less n due ih here e (inl same) = trans (cong (λ d → more o′ d k) same)
    (trans (cong (λ o → more o (Some x) k) (ih e)) (trans (cong (λ o → more o (Some x) k) (sym e))
      (trans (cong (λ b → Some (if b then (x , k) else r)) less) e)))

-- some deadlines are left out

Within : Dues → Dues → Set
Within m′ m = (k : ℕ) → get m′ k None ≡ get m k None ⊎ get m′ k None ≡ None

fewer : (m m′ : Dues) → Within m′ m → (n : ℕ) → least-below m n ≼ least-below m′ n
fewer m m′ within zero = empty
fewer m m′ within (suc n) =
  more-≼ (least-below m n) (least-below m′ n) (get m n None) (get m′ n None) n (within n) (fewer m m′ within n)

least-stays : (m m′ : Dues) → Within m′ m → (k n due : ℕ) → get m′ n None ≡ Some due → least-below m k ≡ Some (due , n)
  → least-below m′ k ≡ Some (due , n)
least-stays m m′ within (suc k) n due here e =
  stays (least-below m k) (least-below m′ k) (get m k None) (get m′ k None) k n due (within k) (fewer m m′ within k)
    (least-stays m m′ within k n due here) (λ same → subst (λ k → get m′ k None ≡ Some due) (sym same) here) e

-- the least is one of them
least-is : (m : Dues) (k n due : ℕ) → least-below m k ≡ Some (due , n) → get m n None ≡ Some due
least-is m (suc k) n due e = by (least-below m k) (get m k None) refl (least-is m k) n due e
  where
  by : (o : Least) (d : Option ℕ) → get m k None ≡ d → ((n due : ℕ) → o ≡ Some (due , n) → get m n None ≡ Some due)
    → (n due : ℕ) → more o d k ≡ Some (due , n) → get m n None ≡ Some due
  by o None f ih n due e = ih n due e
  by None (Some x) f ih n due refl = f
  by (Some r) (Some x) f ih n due e = chosen (ltb x (fst r)) n due e
    where
    chosen : (b : Bool) (n due : ℕ) → Some (if b then (x , k) else r) ≡ Some (due , n) → get m n None ≡ Some due
    chosen true n due refl = f
    chosen false n due e = ih n due e

-- the deadlines of timers that are ready

module _ (f : ℕ → Option ℕ) (is-left : ℕ → Bool) where
  left : ℕ → Option ℕ
  left n = if is-left n then f n else None

  within-left : (xs : List ℕ) → Within (map left xs) (map f xs)
  within-left [] k = inl refl
  within-left (x ∷ xs) zero = by (is-left x)
    where
    by : (b : Bool) → (if b then f x else None) ≡ f x ⊎ (if b then f x else None) ≡ None
    by true = inl refl
    by false = inr refl
  within-left (x ∷ xs) (suc k) = within-left xs k

-- what is at a place of a list over a range
at-place : (f g : ℕ → Option ℕ) (a n k due : ℕ) → get (map f (range-with-len a n)) k None ≡ Some due
  → get (map g (range-with-len a n)) k None ≡ g (a + k)
at-place f g a (suc n) zero due e = cong g (sym (+-zero a))
at-place f g a (suc n) (suc k) due e = trans (at-place f g (a + 1) n k due e) (cong g (+-assoc a 1 k))

split : (o : Least) (due : ℕ) (t : ℕ × ℕ) → option-map (λ r → (fst r , timer-of (snd r))) o ≡ Some (due , t)
  → Σ[ n ∈ ℕ ] o ≡ Some (due , n) × timer-of n ≡ t
split (Some r) due t refl = snd r ,, refl , refl

earliest : the-earliest-timer-has-the-alarm-if-it-is-ready-some
earliest s due t e ready = cong (option-map λ r → alarm-after (State.moment s) (fst r))
    (cong (option-map λ r → (fst r , timer-of (snd r))) (subst (λ k → least-below m′ k ≡ Some (due , n)) same-length
      (least-stays m m′ (within-left (active-due bank) is-ready numbers) (length m) n due at-n found)))
  where
  bank = bank-of s
  numbers = range-with-len 0 (length (State.timers s))
  is-ready : ℕ → Bool
  is-ready n = is-ready-for s (timer-of n) (mode-at s (timer-of n))
  m m′ : Dues
  m = dues bank
  m′ = ready-dues s
  the-least = split (least-below m (length m)) due t e
  n = witness the-least
  found = fst (proof the-least)
  deadline : get m n None ≡ Some due
  deadline = least-is m (length m) n due found
  is-now : is-ready n ≡ true
  is-now = subst (λ t → is-ready-for s t (mode-at s t) ≡ true) (sym (snd (proof the-least))) ready
  at-n : get m′ n None ≡ Some due
  at-n = trans (at-place (active-due bank) (ready-due s) 0 (length (State.timers s)) n due deadline)
    (trans (cong (λ b → if b then active-due bank n else None) is-now)
      (trans (sym (at-place (active-due bank) (active-due bank) 0 (length (State.timers s)) n due deadline)) deadline))
  same-length : length m ≡ length m′
  same-length = trans (length-map (active-due bank) numbers) (sym (length-map (ready-due s) numbers))
