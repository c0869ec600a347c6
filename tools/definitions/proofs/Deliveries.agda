{-# OPTIONS --safe #-}
-- Requests of vectors, and deliveries of messages, keep what proofs.Kept lists.
module proofs.Deliveries where

open import Prelude
open import board-terms.Messages using (ticket-of)
open import board-terms.declared.messages.Message using (Message)
open import board-terms.declared.notices.Notice using (Notice; Pending; Placed)
open import board-terms.declared.pages.Kind using (Sim)
open import core.Option using (option-map-or)
open import gpa-space.Page using (with-bit; with-slot)
open import gpa-space.Space using (is-pending; own-page)
open import lib.ListN using (length; set) renaming (get-or to get)
open import message-queues.Image using (image)
open import message-queues.Queues using (queue-of)
open import synic-board.Absorbing using (absorbed-below; absorbed-bit; is-posted)
open import synic-board.Delivery
open import synic-board.Effects using (Effect; Outcome; after; nothing)
open import synic-board.Interrupts using (is-requested; raised; requested)
open import synic-board.Sending using (sent-below; sent-to)
open import synic-board.State using (State; regs-of; space-of)
open import synic-regs.Regs using (raised-by)
open import core.Int using (bit-at)
open import proofs.Equality
open import proofs.Kept
open import proofs.Lists
open import proofs.Numbers
open import proofs.Slots
open State

record KeepsE (n : ℕ) (s : State) (e : Effect) : Set where
  constructor effect
  field
    of-effect : Keeps n s (fst e) (snd e)
open KeepsE public

module _ {n : ℕ} {s : State} where
  nothing-keeps : KeepsE n s (nothing s)
  nothing-keeps = effect keeps-nothing

  after-keeps : {e f : Effect} → KeepsE n s e → KeepsE n (fst e) f → KeepsE n s (after e f)
  after-keeps p q = effect (keeps-after (of-effect p) (of-effect q))

  if-keeps : (b : Bool) {x y : Effect} → (b ≡ true → KeepsE n s x) → (b ≡ false → KeepsE n s y)
    → KeepsE n s (if b then x else y)
  if-keeps true p q = p refl
  if-keeps false p q = q refl

  option-keeps : {A : Set} (o : Option A) {f : A → Effect} {d : Effect} → ((x : A) → o ≡ Some x → KeepsE n s (f x))
    → (o ≡ None → KeepsE n s d) → KeepsE n s (option-map-or f o d)
  option-keeps (Some x) p q = p x refl
  option-keeps None p q = q refl

  given : {now : State} {ns : List Notice} → (Sound n s → Keeps n s now ns) → Keeps n s now ns
  given f = keeps λ h → from (f h) h

-- requests

requested-keeps : (n : ℕ) (s : State) (p v : ℕ) → KeepsE n s (requested s p v)
requested-keeps n s p v = if-keeps (is-requested s p v) (λ _ → nothing-keeps) λ _ →
  effect (keeps-quietly (λ h → set-apic (fst h) p _ , snd h) refl refl refl λ t → refl)

raised-keeps : (n : ℕ) (s : State) (p i : ℕ) → KeepsE n s (raised s p i)
raised-keeps n s p i = option-keeps (raised-by (regs-of s p) i) (λ v _ → requested-keeps n s p v) λ _ → nothing-keeps

absorbed-keeps : (n : ℕ) (s : State) (p part bits k : ℕ) → KeepsE n s (absorbed-below s p part bits k)
absorbed-keeps n s p part bits zero = nothing-keeps
absorbed-keeps n s p part bits (suc i) = after-keeps (absorbed-keeps n s p part bits i)
  (if-keeps (is-posted part bits i) (λ _ → requested-keeps n _ p (64 * part + i)) λ _ → nothing-keeps)

sent-keeps : (n : ℕ) (s : State) (v mask k : ℕ) → KeepsE n s (sent-below s v mask k)
sent-keeps n s v mask zero = nothing-keeps
sent-keeps n s v mask (suc p) = after-keeps (sent-keeps n s v mask p)
  (if-keeps (bit-at mask p == 1) (λ _ → requested-keeps n _ p v) λ _ → nothing-keeps)

-- pages

apart-pages : (p q : ℕ) → q ≢ p → 2 * q ≢ 2 * p
apart-pages p q d e = d (fst (row-same 2 q p 0 0 tt tt (trans (+-zero (2 * q)) (trans e (sym (+-zero (2 * p)))))))

-- another page of a processor, where each slot that is empty was empty
free-page : (n : ℕ) (o : List (List ℕ)) (l : List (Option ℕ)) (p : ℕ) (page : List ℕ) → 2 * p < length o
  → ((j : ℕ) → kind-at page j ≡ kind-at (get o (2 * p) []) j) → Free n o l → Free n (set o (2 * p) page) l
free-page n o l p page inside same-kind f q j b c e with compared q p
... | inr (inl refl) = f q j b c (trans (sym (same-kind j)) (trans
  (cong (λ y → kind-at y j) (sym (get-same o (2 * q) page [] inside))) e))
... | inl less = f q j b c (trans (cong (λ y → kind-at y j)
  (sym (get-other o (2 * q) (2 * p) page [] (apart-pages p q λ { refl → below-not q q less (≤-refl q) })))) e)
... | inr (inr more) = f q j b c (trans (cong (λ y → kind-at y j)
  (sym (get-other o (2 * q) (2 * p) page [] (apart-pages p q λ { refl → below-not q q more (≤-refl q) })))) e)

-- MessagePending is in none of the first four bytes
kind-with-pending : (page : List ℕ) (i j : ℕ) → kind-at (with-bit page (256 * i + 5) 0) j ≡ kind-at page j
kind-with-pending page i j = kind-same _ page j λ k h → get-other page (256 * j + k) (256 * i + 5) _ 0 λ e →
  five k h (snd (row-same 256 j i k 5 (<-≤ k 4 256 h tt) tt e))
  where
  five : (k : ℕ) → k < 4 → k ≢ 5
  five .5 () refl

-- placing

placed-quietly : (t ticket p i : ℕ) (pending : Bool) → ended t (placed-notices ticket p i pending) ≡ 0
placed-quietly t ticket p i true = refl
placed-quietly t ticket p i false = refl

free-placed : (n : ℕ) (o : List (List ℕ)) (l : List (Option ℕ)) (p i : ℕ) (page : List ℕ) (ticket : ℕ) → i < 16
  → 2 * p < length o → kind-at page i ≢ 0 → ((j : ℕ) → j ≢ i → kind-at page j ≡ kind-at (get o (2 * p) []) j)
  → Free n o l → Free n (set o (2 * p) page) (set l (16 * p + i) (Some ticket))
free-placed n o l p i page ticket small inside occupied others f q j b c e = decided (compared q p)
  where
  elsewhere : q ≢ p → get (set l (16 * p + i) (Some ticket)) (16 * q + j) None ≡ None
  elsewhere d = trans (get-other l (16 * q + j) (16 * p + i) _ None λ same → d (fst (row-same 16 q p j i c small same)))
    (f q j b c (trans (cong (λ y → kind-at y j) (sym (get-other o (2 * q) (2 * p) page [] (apart-pages p q d)))) e))
  here : q ≡ p → get (set l (16 * p + i) (Some ticket)) (16 * q + j) None ≡ None
  here refl = slot (compared j i)
    where
    kind : kind-at page j ≡ 0
    kind = trans (cong (λ y → kind-at y j) (sym (get-same o (2 * q) page [] inside))) e
    other : j ≢ i → get (set l (16 * q + i) (Some ticket)) (16 * q + j) None ≡ None
    other d = trans (get-other l (16 * q + j) (16 * q + i) _ None λ same → d (snd (row-same 16 q q j i c small same)))
      (f q j b c (trans (sym (others j d)) kind))
    slot : j < i ⊎ (j ≡ i ⊎ i < j) → get (set l (16 * q + i) (Some ticket)) (16 * q + j) None ≡ None
    slot (inr (inl refl)) = absurd (occupied kind)
    slot (inl less) = other λ { refl → below-not j j less (≤-refl j) }
    slot (inr (inr more)) = other λ { refl → below-not j j more (≤-refl j) }
  decided : q < p ⊎ (q ≡ p ⊎ p < q) → get (set l (16 * p + i) (Some ticket)) (16 * q + j) None ≡ None
  decided (inr (inl same)) = here same
  decided (inl less) = elsewhere λ { refl → below-not q q less (≤-refl q) }
  decided (inr (inr more)) = elsewhere λ { refl → below-not q q more (≤-refl q) }

placed-keeps : (n : ℕ) (s : State) (p i : ℕ) (m : Message) (rest : List Message) → p < n → i < 16
  → get (queues s) (16 * p + i) [] ≡ m ∷ rest → kind-at (get (own s) (2 * p) []) i ≡ 0
  → Keeps n s (placed-state s p i m rest) (placed-notices (ticket-of m) p i (ltb 0 (length rest)))
placed-keeps n s p i m rest b c e empty = keeps λ h → sound h , balanced h
  where
  more = ltb 0 (length rest)
  page = get (own s) (2 * p) []
  bytes = image m more (moment s)
  now = placed-state s p i m rest
  queued-all : Sound n s → AreQueued (m ∷ rest)
  queued-all h = subst AreQueued e (messages (fst h) (16 * p + i))
  sound : Sound n s → Sound n now
  sound h = let (fit , left) = queued-all h
                w = fst h
                size = sim-size w p b
                slot = length-image m more (moment s) (snd (snd fit)) in
    set-slot (set-queue (set-own w (2 * p) _ λ _ → length-slot page i bytes slot c size) (16 * p + i) rest left)
      (16 * p + i) (Some (ticket-of m)) ,
    free-placed n (own s) (slots s) p i _ (ticket-of m) c (in-own w p b) (kind-of-image page i m more (moment s) fit c size)
      (λ j d → kind-same _ page j λ k k<4 → byte-apart page i j bytes k slot c size d (<-≤ k 4 256 k<4 tt)) (snd h)
  balanced : Sound n s → Balanced s now (placed-notices (ticket-of m) p i more)
  balanced h t = trans (cong (λ x → held t now + x + before t s) (placed-quietly t (ticket-of m) p i more))
    (replaced (queued t s) _ (in-queue t (get (queues s) k [])) (in-queue t rest) (slotted t s) _
      (in-slot t (get (slots s) k None)) (in-slot t (Some (ticket-of m))) 0 (before t s) (before t s)
      (total-set (in-queue t) (queues s) k rest [] (in-queues (fst h) p i b c))
      (total-set (in-slot t) (slots s) k (Some (ticket-of m)) None (in-slots (fst h) p i b c))
      (trans (solve (in-queue t rest ∷ it ∷ before t s ∷ []) (var 0 ⊕ (var 1 ⊕ none) ⊕ none ⊕ var 2)
          ((var 1 ⊕ var 0) ⊕ none ⊕ var 2) refl)
        (cong₂ (λ x y → x + y + before t s) (cong (in-queue t) (sym e)) (cong (in-slot t) (sym (snd h p i b c empty))))))
    where
    k = 16 * p + i
    it = one (λ x → x == t) (ticket-of m)

marked-quietly : (t p i : ℕ) (was : Bool) → ended t (if was then [] else Pending p i ∷ []) ≡ 0
marked-quietly t p i true = refl
marked-quietly t p i false = refl

marked-keeps : (n : ℕ) (s : State) (p i : ℕ) → p < n → KeepsE n s (marked s p i)
marked-keeps n s p i b = effect (given λ h → keeps-quietly
  (λ h → set-own (fst h) (2 * p) _ (λ _ → trans (length-set (get (own s) (2 * p) []) (256 * i + 5) _) (sim-size (fst h) p b)) ,
    free-page n (own s) (slots s) p _ (in-own (fst h) p b) (kind-with-pending (get (own s) (2 * p) []) i) (snd h))
  refl refl refl λ t → marked-quietly t p i (is-pending (space-of s) p i))

-- a delivery attempt

tried-keeps : (n : ℕ) (s : State) (p i : ℕ) → p < n → i < 16 → KeepsE n s (tried s p i)
tried-keeps n s p i b c = if-keeps (delivers s p && ltb 0 (length (queue-of (queues s) p i)))
  (λ _ → if-keeps (is-slot-empty s p i) (λ empty → after-keeps (head (queue-of (queues s) p i) refl empty) (raised-keeps n _ p i))
    λ _ → marked-keeps n s p i b)
  λ _ → nothing-keeps
  where
  head : (q : List Message) → queue-of (queues s) p i ≡ q → is-slot-empty s p i ≡ true → KeepsE n s (placed-head s p i q)
  head [] e empty = nothing-keeps
  head (m ∷ rest) e empty = effect (placed-keeps n s p i m rest b c e
    (kind-of-empty (own-page (space-of s) p Sim) i empty))

tried-below-keeps : (n : ℕ) (s : State) (p k : ℕ) → p < n → k ≤ 16 → KeepsE n s (tried-below s p k)
tried-below-keeps n s p zero b c = nothing-keeps
tried-below-keeps n s p (suc i) b c = after-keeps (tried-below-keeps n s p i b (≤-trans i (suc i) 16 (less i) c))
  (tried-keeps n _ p i b c)
  where
  less : (i : ℕ) → i ≤ suc i
  less zero = tt
  less (suc i) = less i

-- accepting

next-given : (t k : ℕ) → (if ltb t (k + 1) then 1 else 0) ≡ cond (k == t) 1 0 + (if ltb t k then 1 else 0)
next-given zero zero = refl
next-given zero (suc k) = refl
next-given (suc t) zero = refl
next-given (suc t) (suc k) = next-given t k

queued-too : (ms : List Message) (m : Message) → AreQueued ms → IsQueued m → AreQueued (ms ++ m ∷ [])
queued-too [] m p q = q , tt
queued-too (x ∷ ms) m (p , ps) q = p , queued-too ms m ps q

in-joined : (t : ℕ) (ms : List Message) (m : Message)
  → in-queue t (ms ++ m ∷ []) ≡ in-queue t ms + one (λ x → x == t) (ticket-of m)
in-joined t [] m = +-zero _
in-joined t (x ∷ ms) m = trans (cong (one (λ x → x == t) (ticket-of x) +_) (in-joined t ms m))
  (sym (+-assoc (one (λ x → x == t) (ticket-of x)) (in-queue t ms) (one (λ x → x == t) (ticket-of m))))

accepted-keeps : (n : ℕ) (s : State) (p i : ℕ) (m : Message) → p < n → i < 16 → IsQueued m → ticket-of m ≡ next-ticket s
  → KeepsE n s (accepted s p i m)
accepted-keeps n s p i m b c fit e = effect (keeps λ h →
  (set-queue (fst h) k _ (queued-too (get (queues s) k []) m (messages (fst h) k) fit) , snd h) , balanced h)
  where
  k = 16 * p + i
  balanced : Sound n s → Balanced s (fst (accepted s p i m)) (snd (accepted s p i m))
  balanced h t = replaced (queued t s) _ (in-queue t (get (queues s) k [])) (in-queue t (get (queues s) k [] ++ m ∷ []))
    (slotted t s) (slotted t s) 0 0 0 (before t s) _
    (total-set (in-queue t) (queues s) k (get (queues s) k [] ++ m ∷ []) [] (in-queues (fst h) p i b c)) refl
    (trans (cong (λ x → x + 0 + 0 + before t s) (in-joined t (get (queues s) k []) m))
      (trans (solve (in-queue t (get (queues s) k []) ∷ one (λ x → x == t) (ticket-of m) ∷ before t s ∷ [])
          (var 0 ⊕ var 1 ⊕ none ⊕ none ⊕ var 2) (var 0 ⊕ none ⊕ (var 1 ⊕ var 2)) refl)
        (cong (in-queue t (get (queues s) k []) + 0 +_)
          (trans (cong (λ x → one (λ x → x == t) x + before t s) e) (sym (next-given t (next-ticket s)))))))

delivered-keeps : (n : ℕ) (s : State) (p i : ℕ) (m : Message) → p < n → i < 16 → IsQueued m → ticket-of m ≡ next-ticket s
  → KeepsE n s (delivered s p i m)
delivered-keeps n s p i m b c fit e = after-keeps (accepted-keeps n s p i m b c fit e) (tried-keeps n _ p i b c)
