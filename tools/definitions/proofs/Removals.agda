{-# OPTIONS --safe #-}
-- Stores, resets and closed ports, which take messages from slots and queues, keep what proofs.Kept lists.
module proofs.Removals where

open import Prelude
open import board-terms.Messages using (ticket-of)
open import board-terms.declared.messages.Message using (Message)
open import board-terms.declared.notices.Notice using (Consumed; Notice; Withdrawn)
open import board-terms.declared.pages.Kind using (Sim)
open import board-terms.declared.pages.Owner using (Guest; Nothing; Owner; Sief) renaming (Sim to SimOf)
open import core.List using (filter)
open import core.Option using (option-map-or)
open import gpa-space.Page using (overwritten; zero-page)
open import gpa-space.Space
open import lib.ListN using (length; set) renaming (get-or to get)
open import message-queues.Queues using (is-from-port; left-of; queue-of; withdrawn-of)
open import synic-board.Delivery using (is-slot-empty)
open import synic-board.Effects using (Effect; Outcome; after; answered; nothing; refused)
open import synic-board.Locations using (is-end-of)
open import synic-board.Posts using (withdrawals; withdrawn)
open import synic-board.Resetting
open import synic-board.State hiding (opened; processors)
open import synic-board.Stores
open import synic-board.declared.event.Reply using (Done)
open import proofs.Deliveries
open import proofs.Equality
open import proofs.Kept
open import proofs.Lists
open import proofs.Numbers
open import proofs.Slots
open State

record KeepsO (n : ℕ) (s : State) (o : Outcome) : Set where
  constructor outcome
  field
    of-outcome : Keeps n s (fst o) (snd (snd o))
open KeepsO public

answered-keeps : {n : ℕ} {s : State} {e : Effect} → KeepsE n s e → KeepsO n s (answered Done e)
answered-keeps k = outcome (of-effect k)

-- some slots of a processor lose their tickets, each that a condition names, and the own pages stay
record Clears (n p : ℕ) (P : ℕ → Set) (s : State) (e : Effect) : Set where
  constructor clears
  field
    still-whole : WholeState n s → WholeState n (fst e)
    still-balanced : WholeState n s → Balanced s (fst e) (snd e)
    own-same : own (fst e) ≡ own s
    stay : (k : ℕ) → get (slots s) k None ≡ None → get (slots (fst e)) k None ≡ None
    gone : (j : ℕ) → P j → get (slots (fst e)) (16 * p + j) None ≡ None
open Clears

module _ {n p : ℕ} where
  clears-nothing : {P : ℕ → Set} {s : State} → ((j : ℕ) → P j → get (slots s) (16 * p + j) None ≡ None)
    → Clears n p P s (nothing s)
  clears-nothing {s = s} f = clears (λ w → w) (λ w → balanced-same s s [] refl refl refl λ t → refl) refl (λ k e → e) f

  clears-after : {P Q R : ℕ → Set} {s : State} {e f : Effect} → Clears n p P s e → Clears n p Q (fst e) f
    → ((j : ℕ) → R j → P j ⊎ Q j) → Clears n p R s (after e f)
  clears-after {P} {Q} {R} {s} {e} {f} x y split = clears (λ w → still-whole y (still-whole x w))
    (λ w → balanced-after {s} {fst e} {fst f} {snd e} {snd f} (still-balanced x w) (still-balanced y (still-whole x w)))
    (trans (own-same y) (own-same x)) (λ k g → stay y k (stay x k g)) λ j r → by j (split j r)
    where
    by : (j : ℕ) → P j ⊎ Q j → get (slots (fst f)) (16 * p + j) None ≡ None
    by j (inl a) = stay y (16 * p + j) (gone x j a)
    by j (inr b) = gone y j b

-- a slot is cleared

set-none : (xs : List (Option ℕ)) (k : ℕ) → get (set xs k None) k None ≡ None
set-none [] k = refl
set-none (x ∷ xs) zero = refl
set-none (x ∷ xs) (suc k) = set-none xs k

inside : (xs : List (Option ℕ)) (k t : ℕ) → get xs k None ≡ Some t → k < length xs
inside (x ∷ xs) zero t e = tt
inside (x ∷ xs) (suc k) t e = inside xs k t e

clears-slot : {n p : ℕ} (s : State) (i ticket : ℕ) (notice : Notice) → get (slots s) (16 * p + i) None ≡ Some ticket
  → ((t : ℕ) → one (is-end-of t) notice ≡ one (λ x → x == t) ticket)
  → Clears n p (λ j → j ≡ i) s (with-slot-ticket s p i None , notice ∷ [])
clears-slot {n} {p} s i ticket notice e f = clears (λ w → set-slot w k None) balanced refl
  (λ j g → get-either (λ o → o ≡ None) (slots s) j k None None refl g) λ { .i refl → set-none (slots s) k }
  where
  k = 16 * p + i
  balanced : WholeState n s → Balanced s (with-slot-ticket s p i None) (notice ∷ [])
  balanced w t = replaced (queued t s) (queued t s) 0 0 (slotted t s) _ (in-slot t (get (slots s) k None)) (in-slot t None)
    (ended t (notice ∷ [])) (before t s) (before t s) refl
    (total-set (in-slot t) (slots s) k None None (inside (slots s) k ticket e))
    (cong (_+ before t s) (trans (cong (_+ 0) (f t)) (cong (in-slot t) (sym e))))

-- guest stores

IsEmptied : State → ℕ → ℕ → ℕ → Set
IsEmptied s p k j = j < k × kind-at (get (own s) (2 * p) []) j ≡ 0

consumed-clears : (n : ℕ) (s : State) (p i : ℕ)
  → Clears n p (λ j → j ≡ i × kind-at (get (own s) (2 * p) []) j ≡ 0) s (consumed s p i)
consumed-clears n s p i = by-type (is-slot-empty s p i) refl
  where
  by-slot : (o : Option ℕ) → slot-of s p i ≡ o
    → Clears n p (λ j → j ≡ i × kind-at (get (own s) (2 * p) []) j ≡ 0) s (consumed-ticket s p i o)
  by-slot None e = clears-nothing λ { .i (refl , _) → e }
  by-slot (Some t) e = let c = clears-slot {n} {p} s i t (Consumed p i t) e λ t → refl in
    clears (still-whole c) (still-balanced c) refl (stay c) λ j g → gone c j (fst g)
  by-type : (b : Bool) → is-slot-empty s p i ≡ b → Clears n p (λ j → j ≡ i × kind-at (get (own s) (2 * p) []) j ≡ 0) s
    (if b then consumed-ticket s p i (slot-of s p i) else nothing s)
  by-type true e = by-slot (slot-of s p i) refl
  by-type false e = clears-nothing λ { .i (refl , f) → absurd (kind-of-occupied (own-page (space-of s) p Sim) i e f) }

below-suc : (j i : ℕ) → j < suc i → j < i ⊎ j ≡ i
below-suc j i p with compared j i
... | inl less = inl less
... | inr (inl e) = inr e
... | inr (inr more) = absurd (below-not i j more p)

consumed-below-clears : (n : ℕ) (s : State) (p k : ℕ) → Clears n p (IsEmptied s p k) s (consumed-below s p k)
consumed-below-clears n s p zero = clears-nothing λ { zero (() , _) ; (suc j) (() , _) }
consumed-below-clears n s p (suc i) = let first = consumed-below-clears n s p i in
  clears-after first (consumed-clears n (fst (consumed-below s p i)) p i) λ j (less , empty) →
    split j (below-suc j i less) empty (own-same first)
  where
  split : (j : ℕ) → j < i ⊎ j ≡ i → kind-at (get (own s) (2 * p) []) j ≡ 0 → own (fst (consumed-below s p i)) ≡ own s
    → IsEmptied s p i j ⊎ (j ≡ i × kind-at (get (own (fst (consumed-below s p i))) (2 * p) []) j ≡ 0)
  split j (inl less) empty e = inl (less , empty)
  split j (inr same) empty e = inr (same , trans (cong (λ o → kind-at (get o (2 * p) []) j) e) empty)

-- a page in place of what a guest sees

seen-at : Space → ℕ → List ℕ → Option ℕ → Space
seen-at sp page bytes v = option-map-or (λ overlay → record sp { own = set (Space.own sp) overlay bytes }) v
  (record sp { pages = set (Space.pages sp) page bytes })

owner-at : Option ℕ → Owner
owner-at v = option-map-or overlay-owner v Guest

is-not : {b : Bool} → b ≡ true → b ≡ false → ⊥
is-not refl ()

-- What empties the slots of one processor, after another page was seen there. Agda compares effects by computing them,
-- so the effect is a variable.
emptied-keeps : (n : ℕ) (s now : State) (p : ℕ) (e : Effect) → Clears n p (IsEmptied now p 16) now e
  → (Sound n s → WholeState n now) → ((q j : ℕ) → Sound n s → q < n → j < 16 → q ≢ p
    → kind-at (get (own now) (2 * q) []) j ≡ 0 → get (slots now) (16 * q + j) None ≡ None)
  → Balanced s now [] → KeepsE n s e
emptied-keeps n s now p e c w others balanced = effect (keeps λ h → (still-whole c (w h) , free h) ,
  balanced-after {s} {now} {fst e} {[]} {snd e} balanced (still-balanced c (w h)))
  where
  free : Sound n s → Free n (own (fst e)) (slots (fst e))
  free h q j b d f = by (compared q p)
    where
    kind = trans (cong (λ o → kind-at (get o (2 * q) []) j) (sym (own-same c))) f
    other : q ≢ p → get (slots (fst e)) (16 * q + j) None ≡ None
    other g = stay c (16 * q + j) (others q j h b d g kind)
    by : q < p ⊎ (q ≡ p ⊎ p < q) → get (slots (fst e)) (16 * q + j) None ≡ None
    by (inr (inl refl)) = gone c j (d , kind)
    by (inl less) = other λ { refl → below-not q q less (≤-refl q) }
    by (inr (inr more)) = other λ { refl → below-not q q more (≤-refl q) }

seen-keeps : (n : ℕ) (s : State) (page : ℕ) (bytes : List ℕ) (v : Option ℕ)
  → (WholeState n s → (overlay : ℕ) → v ≡ Some overlay → overlay < length (own s) → length bytes ≡ 4096)
  → KeepsE n s (consumed-in (with-space s (seen-at (space-of s) page bytes v)) (owner-at v))
seen-keeps n s page bytes None size = effect (keeps-quietly (λ h → h) refl refl refl λ t → refl)
seen-keeps n s page bytes (Some overlay) size = by-half (overlay % 2 == 0) refl
  where
  now = with-space s (seen-at (space-of s) page bytes (Some overlay))
  whole-now : Sound n s → WholeState n now
  whole-now h = set-own (fst h) overlay bytes (size (fst h) overlay refl)
  unchanged-page : Sound n s → (q j : ℕ) → q < n → j < 16 → 2 * q ≢ overlay
    → kind-at (get (own now) (2 * q) []) j ≡ 0 → get (slots s) (16 * q + j) None ≡ None
  unchanged-page h q j b c d e = snd h q j b c
    (trans (cong (λ y → kind-at y j) (sym (get-other (own s) (2 * q) overlay bytes [] d))) e)
  half-of : (q : ℕ) → 2 * q ≡ overlay → (overlay % 2 == 0) ≡ true × q ≡ overlay / 2
  half-of q refl = cong (_== 0) (fst (halves q)) , sym (snd (halves q))
  by-half : (b : Bool) → (overlay % 2 == 0) ≡ b
    → KeepsE n s (consumed-in now (if b then SimOf (overlay / 2) else Sief (overlay / 2)))
  by-half true even = emptied-keeps n s now (overlay / 2) (consumed-below now (overlay / 2) 16)
    (consumed-below-clears n now (overlay / 2) 16) whole-now
    (λ q j h b c g → unchanged-page h q j b c λ f → g (snd (half-of q f)))
    (balanced-same s now [] refl refl refl λ t → refl)
  by-half false odd = effect (keeps-quietly (λ h → whole-now h , λ q j b c e →
    unchanged-page h q j b c (λ f → is-not (fst (half-of q f)) odd) e) refl refl refl λ t → refl)

chain : {A : Set} (a b c d : Bool) {w x y z : A}
  → (if a then Some w else if not b then Some x else if c then Some y else if d then Some z else None) ≡ None
  → b ≡ true × c ≡ false
chain false true false false e = refl , refl

at-most : (a b : ℕ) → ltb a b ≡ false → b ≤ a
at-most zero zero e = tt
at-most (suc a) zero e = tt
at-most (suc a) (suc b) e = at-most a b e

stored-keeps : (n : ℕ) (s : State) (address : ℕ) (bytes : List ℕ) → KeepsO n s (stored-bytes s address bytes)
stored-keeps n s address bytes = by (refusal-of sp address (length bytes)) refl
  where
  sp = space-of s
  page = address / 4096
  written = overwritten (visible-page sp page) (address % 4096) bytes
  v = visible sp page
  size : (address % 4096 + length bytes ≤ 4096) → WholeState n s → (overlay : ℕ) → v ≡ Some overlay
    → overlay < length (own s) → length written ≡ 4096
  size fits w overlay e h = trans (splice-length (address % 4096) (visible-page sp page) bytes
    (subst (address % 4096 + length bytes ≤_) (sym here) fits)) here
    where
    here : length (visible-page sp page) ≡ 4096
    here = trans (cong (λ o → length (option-map-or (λ k → get (own s) k []) o (get (pages s) page []))) e)
      (page-sizes w overlay h)
  by : (r : Option _) → refusal-of sp address (length bytes) ≡ r
    → KeepsO n s (option-map-or (refused s) r (answered Done (consumed-in (with-bytes s address bytes) (owner-of sp page))))
  by (Some r) e = outcome keeps-nothing
  by None e = let (on-board , fits) = chain (length bytes == 0 || ltb 8 (length bytes)) (ltb page (page-count sp))
                    (ltb 4096 (address % 4096 + length bytes)) (is-elsewhere sp page) e in
    subst (λ x → KeepsO n s (answered Done x))
      (sym (cong₂ (λ x y → consumed-in (with-space s x) y)
        (cong (λ o → option-map-or (λ _ → sp) o (with-visible-page sp page written)) e)
        (cong (λ b → if b then option-map-or overlay-owner v Guest else Nothing) on-board)))
      (answered-keeps (seen-keeps n s page written v (size (at-most 4096 (address % 4096 + length bytes) fits))))

-- resets

ended-withdrawals : (p i t : ℕ) (ts : List ℕ) → ended t (map (Withdrawn p i) ts) ≡ total (one (λ x → x == t)) ts
ended-withdrawals p i t [] = refl
ended-withdrawals p i t (x ∷ ts) = cong (one (λ x → x == t) x +_) (ended-withdrawals p i t ts)

-- messages leave a queue, each with a notice
queue-left : (n : ℕ) (s : State) (p i : ℕ) (left : List Message) (ns : List Notice) → p < n → i < 16
  → ((t : ℕ) → in-queue t left + ended t ns ≡ in-queue t (get (queues s) (16 * p + i) []))
  → WholeState n s → Balanced s (record s { queues = set (queues s) (16 * p + i) left }) ns
queue-left n s p i left ns b c e w t = replaced (queued t s) _ (in-queue t (get (queues s) k [])) (in-queue t left)
  (slotted t s) (slotted t s) 0 0 (ended t ns) (before t s) (before t s)
  (total-set (in-queue t) (queues s) k left [] (in-queues w p i b c)) refl
  (trans (solve (in-queue t left ∷ ended t ns ∷ before t s ∷ []) (var 0 ⊕ none ⊕ var 1 ⊕ var 2)
    ((var 0 ⊕ var 1) ⊕ none ⊕ var 2) refl) (cong (λ x → x + 0 + before t s) (e t)))
  where
  k = 16 * p + i

source-clears : (n : ℕ) (s : State) (p i : ℕ) → p < n → i < 16 → Clears n p (λ j → j ≡ i) s (source-emptied s p i)
source-clears n s p i b c = clears-after {Q = λ j → ⊥} (slot (slot-of s p i) refl) queue λ j e → inl e
  where
  slot : (o : Option ℕ) → slot-of s p i ≡ o
    → Clears n p (λ j → j ≡ i) s (option-map-or (withdrawn-ticket s p i) o (nothing s))
  slot None e = clears-nothing λ { .i refl → e }
  slot (Some t) e = clears-slot s i t (Withdrawn p i t) e λ t → refl
  queue : {s : State} → Clears n p (λ j → ⊥) s (queue-emptied s p i)
  queue {s} = clears (λ w → set-queue w (16 * p + i) [] tt)
    (queue-left n s p i [] (snd (queue-emptied s p i)) b c λ t → ended-withdrawals p i t (map ticket-of (get (queues s) (16 * p + i) [])))
    refl (λ k e → e) λ j ()

less-suc : (i : ℕ) → i ≤ suc i
less-suc zero = tt
less-suc (suc i) = less-suc i

emptied-clears : (n : ℕ) (s : State) (p k : ℕ) → p < n → k ≤ 16 → Clears n p (λ j → j < k) s (emptied-below s p k)
emptied-clears n s p zero b c = clears-nothing λ { zero () ; (suc j) () }
emptied-clears n s p (suc i) b c = clears-after (emptied-clears n s p i b (≤-trans i (suc i) 16 (less-suc i) c))
  (source-clears n (fst (emptied-below s p i)) p i b c) λ j less → below-suc j i less

cleared-whole : (n : ℕ) (s : State) (p : ℕ) → WholeState n s → WholeState n (cleared s p)
cleared-whole n s p w = set-timer (set-timer (set-timer (set-timer (set-own (set-own (set-apic w p _)
  (2 * p) zero-page size) (2 * p + 1) zero-page size) (4 * p + 0) _) (4 * p + 1) _) (4 * p + 2) _) (4 * p + 3) _
  where
  size : {A : Set} → A → length zero-page ≡ 4096
  size _ = length-replicate 4096 0

reset-of : (n : ℕ) (s : State) (p : ℕ) (e : Effect) → Clears n p (λ j → j < 16) s e
  → KeepsO n s (answered Done (after e (cleared (fst e) p , [])))
reset-of n s p e c = outcome (keeps λ h → (cleared-whole n now p (still-whole c (fst h)) , free h) ,
  balanced-after {s} {now} {cleared now p} {snd e} {[]} (still-balanced c (fst h))
    (balanced-same now (cleared now p) [] refl refl refl λ t → refl))
  where
  now = fst e
  free : Sound n s → Free n (own (cleared now p)) (slots now)
  free h q j d f g = by (compared q p)
    where
    odd : 2 * q ≢ 2 * p + 1
    odd x with snd (row-same 2 q p 0 1 tt tt (trans (+-zero (2 * q)) x))
    ... | ()
    page-same : q ≢ p → get (own (cleared now p)) (2 * q) [] ≡ get (own s) (2 * q) []
    page-same x = trans (get-other (set (own now) (2 * p) zero-page) (2 * q) (2 * p + 1) zero-page [] odd)
      (trans (get-other (own now) (2 * q) (2 * p) zero-page [] (apart-pages p q x))
        (cong (λ o → get o (2 * q) []) (own-same c)))
    other : q ≢ p → get (slots now) (16 * q + j) None ≡ None
    other x = stay c (16 * q + j) (snd h q j d f (trans (cong (λ y → kind-at y j) (sym (page-same x))) g))
    by : q < p ⊎ (q ≡ p ⊎ p < q) → get (slots now) (16 * q + j) None ≡ None
    by (inr (inl refl)) = gone c j f
    by (inl less) = other λ { refl → below-not q q less (≤-refl q) }
    by (inr (inr more)) = other λ { refl → below-not q q more (≤-refl q) }

reset-keeps : (n : ℕ) (s : State) (p : ℕ) → p < n → KeepsO n s (reset s p)
reset-keeps n s p b = reset-of n s p (emptied s p) cleared-slots
  where
  cleared-slots : Clears n p (λ j → j < 16) s (emptied s p)
  cleared-slots = emptied-clears n s p 16 b tt

-- closed ports

split-queue : (port t : ℕ) (ms : List Message) → in-queue t (left-of port ms) + total (one (λ x → x == t)) (withdrawn-of port ms)
  ≡ in-queue t ms
split-queue port t [] = refl
split-queue port t (m ∷ ms) with is-from-port port m
... | true = trans (solve (in-queue t (left-of port ms) ∷ one (λ x → x == t) (ticket-of m) ∷
    total (one (λ x → x == t)) (withdrawn-of port ms) ∷ []) (var 0 ⊕ (var 1 ⊕ var 2)) (var 1 ⊕ (var 0 ⊕ var 2)) refl)
    (cong (one (λ x → x == t) (ticket-of m) +_) (split-queue port t ms))
... | false = trans (+-assoc (one (λ x → x == t) (ticket-of m)) (in-queue t (left-of port ms))
    (total (one (λ x → x == t)) (withdrawn-of port ms)))
    (cong (one (λ x → x == t) (ticket-of m) +_) (split-queue port t ms))

queued-left : (f : Message → Bool) (ms : List Message) → AreQueued ms → AreQueued (filter f ms)
queued-left f [] p = tt
queued-left f (m ∷ ms) (p , ps) with f m
... | true = p , queued-left f ms ps
... | false = queued-left f ms ps

withdrawn-keeps : (n : ℕ) (s : State) (p i port : ℕ) → p < n → i < 16 → KeepsE n s (withdrawn s p i port)
withdrawn-keeps n s p i port b c = effect (keeps λ h →
  (set-queue (fst h) k _ (queued-left _ (get (queues s) k []) (messages (fst h) k)) , snd h) ,
  queue-left n s p i (left-of port (get (queues s) k [])) (withdrawals s p i port) b c
    (λ t → trans (cong (in-queue t (left-of port (get (queues s) k [])) +_)
      (ended-withdrawals p i t (withdrawn-of port (get (queues s) k [])))) (split-queue port t (get (queues s) k []))) (fst h))
  where
  k = 16 * p + i
