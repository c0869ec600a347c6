{-# OPTIONS --safe #-}
-- What is saved of a state leads back to it, and no two such states are saved alike.
module proofs.Saves where

open import Prelude
open import core.List using (All; list-all)
open import core.Option using (is-none)
open import board-terms.declared.messages.Message using (Message)
open import event-ports.Ports using (port-count)
open import gpa-space.Page using (zero-page)
open import lapic-core.Apic using (Apic; empty-apic)
open import law-board.Saved
open import law-board.Theorems using (a-saved-state-is-restored-once; a-saved-state-is-restored-restored)
open import lib.ListN using (length; replicate; set) renaming (get-or to get)
open import stimer-bank.Bank using (idle-timer)
open import stimer-bank.declared.timer.Timer using (Timer)
open import synic-board.State using (State)
open import proofs.Equality
open import proofs.Lists using (length-map)
open import proofs.Numbers using () renaming (same to is-same)
open State

private
  variable
    A : Set

-- the elements that differ from the first one, put back

module _ (f : A → Bool) (d : A) where
  shifted : (k : ℕ) (z : A) (zs xs : List A) → put-back (z ∷ zs) (changed f (suc k) xs) ≡ z ∷ put-back zs (changed f k xs)
  shifted k z zs [] = refl
  shifted k z zs (x ∷ xs) = by (f x)
    where
    by : (b : Bool) → put-back (z ∷ zs) (if b then changed f (suc (suc k)) xs else (suc k , x) ∷ changed f (suc (suc k)) xs)
      ≡ z ∷ put-back zs (if b then changed f (suc k) xs else (k , x) ∷ changed f (suc k) xs)
    by true = shifted (suc k) z zs xs
    by false = shifted (suc k) z (set zs k x) xs

  all-back : (xs : List A) → ((k : ℕ) → k < length xs → f (get xs k d) ≡ true → get xs k d ≡ d)
    → put-back (replicate (length xs) d) (changed f 0 xs) ≡ xs
  all-back [] first = refl
  all-back (x ∷ xs) first = by (f x) refl
    where
    rest : (z : A) → put-back (z ∷ replicate (length xs) d) (changed f 1 xs) ≡ z ∷ xs
    rest z = trans (shifted 0 z (replicate (length xs) d) xs) (cong (z ∷_) (all-back xs λ k → first (suc k)))
    by : (b : Bool) → f x ≡ b
      → put-back (d ∷ replicate (length xs) d) (if b then changed f 1 xs else (0 , x) ∷ changed f 1 xs) ≡ x ∷ xs
    by true e = trans (rest d) (cong (_∷ xs) (sym (first 0 tt e)))
    by false e = rest x

  back : (n : ℕ) (xs : List A) → length xs ≡ n → ((k : ℕ) → k < length xs → f (get xs k d) ≡ true → get xs k d ≡ d)
    → put-back (replicate n d) (changed f 0 xs) ≡ xs
  back n xs e first = trans (cong (λ n → put-back (replicate n d) (changed f 0 xs)) (sym e)) (all-back xs first)

-- the first elements

no-option : (o : Option A) → is-none o ≡ true → o ≡ None
no-option None e = refl

no-message : (q : List Message) → is-empty q ≡ true → q ≡ []
no-message [] e = refl

idle : (x : Timer) → is-idle x ≡ true → x ≡ idle-timer
idle x e = by (Timer.config x == 0) (Timer.count x == 0) (Timer.due x) refl refl refl e
  where
  by : (b c : Bool) (due : Option ℕ) → (Timer.config x == 0) ≡ b → (Timer.count x == 0) ≡ c → Timer.due x ≡ due
    → (if b then (if c then is-none due else false) else false) ≡ true → x ≡ idle-timer
  by true true None f g h e = trans (cong (λ n → record x { config = n }) (is-same _ _ f))
    (trans (cong (λ n → record { config = 0 ; count = n ; due = Timer.due x }) (is-same _ _ g))
      (cong (λ o → record { config = 0 ; count = 0 ; due = o }) h))

zeros : (bytes : List ℕ) → list-all (λ b → b == 0) bytes ≡ true → bytes ≡ replicate (length bytes) 0
zeros [] e = refl
zeros (zero ∷ bytes) e = cong (0 ∷_) (zeros bytes e)

zero-pages : (xs : List (List ℕ)) → All (λ page → length page ≡ 4096) xs → (k : ℕ) → k < length xs
  → is-zero-page (get xs k zero-page) ≡ true → get xs k zero-page ≡ zero-page
zero-pages xs sizes k less e = trans (zeros (get xs k zero-page) e) (cong (λ n → replicate n 0) (sizes k zero-page less))

-- the marks of the timers

pointwise : (xs ys : List Bool) → length xs ≡ length ys → ((k : ℕ) → get xs k false ≡ get ys k false) → xs ≡ ys
pointwise [] [] e f = refl
pointwise (x ∷ xs) (y ∷ ys) e f = cong₂ _∷_ (f 0) (pointwise xs ys (pred e) λ k → f (suc k))
  where
  pred : {m n : ℕ} → suc m ≡ suc n → m ≡ n
  pred refl = refl

mark : (xs : List Apic) (k : ℕ) → get (map Apic.suspended xs) k false ≡ Apic.suspended (get xs k empty-apic)
mark [] k = refl
mark (x ∷ xs) zero = refl
mark (x ∷ xs) (suc k) = mark xs k

-- the state

parts : (s : State) {g o : List (List ℕ)} {x : List _} {q : List _} {l : List _} {t : List Timer} {m : List Bool}
  → g ≡ pages s → o ≡ own s → x ≡ ports s → q ≡ queues s → l ≡ slots s → t ≡ timers s → m ≡ suspended s
  → record s { pages = g ; own = o ; ports = x ; queues = q ; slots = l ; timers = t ; suspended = m } ≡ s
parts s refl refl refl refl refl refl refl = refl

leads-back : a-saved-state-is-restored-restored
leads-back s (page-sizes , own-sizes , own-count , port-number , queue-count , slot-count , timer-count) (_ , _ , marks , paired) =
  parts s (back is-zero-page zero-page _ (pages s) refl (zero-pages (pages s) page-sizes))
    (back is-zero-page zero-page _ (own s) own-count (zero-pages (own s) own-sizes))
    (back is-none None _ (ports s) port-number λ k _ → no-option _)
    (back is-empty [] _ (queues s) queue-count λ k _ → no-message _)
    (back is-none None _ (slots s) slot-count λ k _ → no-option _)
    (back is-idle idle-timer _ (timers s) timer-count λ k _ → idle _)
    (pointwise (map Apic.suspended (apics s)) (suspended s) (trans (length-map Apic.suspended (apics s)) (sym marks))
      λ k → trans (mark (apics s) k) (sym (paired k)))

once : a-saved-state-is-restored-once
once s t shape paired shape′ paired′ e = trans (sym (leads-back s shape paired)) (trans (cong restored e) (leads-back t shape′ paired′))
