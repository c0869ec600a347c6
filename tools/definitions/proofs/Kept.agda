{-# OPTIONS --safe #-}
-- What each event keeps: the sizes of the parts, messages that may be placed, empty slots without tickets, and the count
-- of each ticket.
module proofs.Kept where

open import Prelude
open import board-terms.Messages using (ticket-of)
open import board-terms.declared.messages.Message using (Message)
open import board-terms.declared.notices.Notice using (Notice)
open import core.List using (cons-option)
open import event-ports.declared.ports.Port using (Port)
open import lapic-core.Apic using (Apic)
open import lib.ListN using (length; set) renaming (get-or to get)
open import message-queues.Queues using (Queues)
open import stimer-bank.declared.timer.Timer using (Timer)
open import synic-board.Locations using (is-end-of)
open import synic-board.State using (State)
open import proofs.Equality
open import proofs.Lists
open import proofs.Numbers
open import proofs.Slots
open State

AreQueued : List Message → Set
AreQueued [] = ⊤
AreQueued (m ∷ ms) = IsQueued m × AreQueued ms

-- a port has a source of a processor on the board
Reaches : ℕ → Option Port → Set
Reaches n None = ⊤
Reaches n (Some x) = Port.vp x < n × Port.sint x < 16

-- the parts of a state with n processors: local APICs, own pages, queues, slots, ports, timers
record Whole (n : ℕ) (a : List Apic) (o : List (List ℕ)) (q : Queues) (l : List (Option ℕ)) (x : List (Option Port))
  (t : List Timer) : Set where
  constructor whole
  field
    apic-count : length a ≡ n
    own-count : length o ≡ 2 * n
    page-sizes : (k : ℕ) → k < length o → length (get o k []) ≡ 4096
    queue-count : length q ≡ 16 * n
    slot-count : length l ≡ 16 * n
    timer-count : length t ≡ 4 * n
    targets : (k : ℕ) → Reaches n (get x k None)
    messages : (k : ℕ) → AreQueued (get q k [])
open Whole public

-- an empty slot holds no ticket
Free : ℕ → List (List ℕ) → List (Option ℕ) → Set
Free n o l = (p i : ℕ) → p < n → i < 16 → kind-at (get o (2 * p) []) i ≡ 0 → get l (16 * p + i) None ≡ None

WholeState Sound : ℕ → State → Set
WholeState n s = Whole n (apics s) (own s) (queues s) (slots s) (ports s) (timers s)
Sound n s = WholeState n s × Free n (own s) (slots s)

module _ {n : ℕ} {a : List Apic} {o : List (List ℕ)} {q : Queues} {l : List (Option ℕ)} {x : List (Option Port)}
  {t : List Timer} (h : Whole n a o q l x t) where

  set-apic : (k : ℕ) (y : Apic) → Whole n (set a k y) o q l x t
  set-apic k y = whole (trans (length-set a k y) (apic-count h)) (own-count h) (page-sizes h) (queue-count h)
    (slot-count h) (timer-count h) (targets h) (messages h)

  set-own : (k : ℕ) (y : List ℕ) → (k < length o → length y ≡ 4096) → Whole n a (set o k y) q l x t
  set-own k y e = whole (apic-count h) (trans (length-set o k y) (own-count h)) sizes (queue-count h)
    (slot-count h) (timer-count h) (targets h) (messages h)
    where
    sizes : (j : ℕ) → j < length (set o k y) → length (get (set o k y) j []) ≡ 4096
    sizes j p with compared j k
    ... | inr (inl refl) = let here = subst (j <_) (length-set o k y) p in
      trans (cong length (get-same o k y [] here)) (e here)
    ... | inl less = trans (cong length (get-other o j k y [] λ { refl → below-not j j less (≤-refl j) }))
      (page-sizes h j (subst (j <_) (length-set o k y) p))
    ... | inr (inr more) = trans (cong length (get-other o j k y [] λ { refl → below-not j j more (≤-refl j) }))
      (page-sizes h j (subst (j <_) (length-set o k y) p))

  set-queue : (k : ℕ) (y : List Message) → AreQueued y → Whole n a o (set q k y) l x t
  set-queue k y p = whole (apic-count h) (own-count h) (page-sizes h) (trans (length-set q k y) (queue-count h))
    (slot-count h) (timer-count h) (targets h) λ j → get-either AreQueued q j k y [] p (messages h j)

  set-slot : (k : ℕ) (y : Option ℕ) → Whole n a o q (set l k y) x t
  set-slot k y = whole (apic-count h) (own-count h) (page-sizes h) (queue-count h)
    (trans (length-set l k y) (slot-count h)) (timer-count h) (targets h) (messages h)

  set-port : (k : ℕ) (y : Option Port) → Reaches n y → Whole n a o q l (set x k y) t
  set-port k y p = whole (apic-count h) (own-count h) (page-sizes h) (queue-count h) (slot-count h) (timer-count h)
    (λ j → get-either (Reaches n) x j k y None p (targets h j)) (messages h)

  set-timer : (k : ℕ) (y : Timer) → Whole n a o q l x (set t k y)
  set-timer k y = whole (apic-count h) (own-count h) (page-sizes h) (queue-count h) (slot-count h)
    (trans (length-set t k y) (timer-count h)) (targets h) (messages h)

  -- the places of a source, and of a message page
  in-queues : (p i : ℕ) → p < n → i < 16 → 16 * p + i < length q
  in-queues p i b c = subst (16 * p + i <_) (sym (queue-count h)) (row-below 16 p n i c b)

  in-slots : (p i : ℕ) → p < n → i < 16 → 16 * p + i < length l
  in-slots p i b c = subst (16 * p + i <_) (sym (slot-count h)) (row-below 16 p n i c b)

  in-own : (p : ℕ) → p < n → 2 * p < length o
  in-own p b = subst (2 * p <_) (sym (own-count h)) (subst (_< 2 * n) (+-zero (2 * p)) (row-below 2 p n 0 tt b))

  sim-size : (p : ℕ) → p < n → length (get o (2 * p) []) ≡ 4096
  sim-size p b = page-sizes h (2 * p) (in-own p b)

-- the count of a ticket

queued slotted held before : ℕ → State → ℕ
in-queue : ℕ → List Message → ℕ
in-queue t ms = total (one (λ x → x == t)) (map ticket-of ms)
in-slot : ℕ → Option ℕ → ℕ
in-slot t o = total (one (λ x → x == t)) (cons-option o [])
queued t s = total (in-queue t) (queues s)
slotted t s = total (in-slot t) (slots s)
held t s = queued t s + slotted t s
before t s = if ltb t (next-ticket s) then 1 else 0

ended : ℕ → List Notice → ℕ
ended t ns = total (one (is-end-of t)) ns

Balanced : State → State → List Notice → Set
Balanced s now ns = (t : ℕ) → held t now + ended t ns + before t s ≡ held t s + before t now

-- a queue and a slot are replaced
replaced : (q q′ qo qn l l′ lo ln e b b′ : ℕ) → q′ + qo ≡ q + qn → l′ + lo ≡ l + ln → qn + ln + e + b ≡ qo + lo + b′
  → q′ + l′ + e + b ≡ q + l + b′
replaced q q′ qo qn l l′ lo ln e b b′ f g h = cancel-right _ _ (qo + lo) (trans
  (solve (q′ ∷ l′ ∷ e ∷ b ∷ qo ∷ lo ∷ []) (var 0 ⊕ var 1 ⊕ var 2 ⊕ var 3 ⊕ (var 4 ⊕ var 5))
    ((var 0 ⊕ var 4) ⊕ (var 1 ⊕ var 5) ⊕ (var 2 ⊕ var 3)) refl)
  (trans (cong₂ (λ u v → u + v + (e + b)) f g)
  (trans (solve (q ∷ qn ∷ l ∷ ln ∷ e ∷ b ∷ []) ((var 0 ⊕ var 1) ⊕ (var 2 ⊕ var 3) ⊕ (var 4 ⊕ var 5))
    ((var 0 ⊕ var 2) ⊕ (var 1 ⊕ var 3 ⊕ var 4 ⊕ var 5)) refl)
  (trans (cong (q + l +_) h)
  (solve (q ∷ l ∷ qo ∷ lo ∷ b′ ∷ []) ((var 0 ⊕ var 1) ⊕ (var 2 ⊕ var 3 ⊕ var 4)) (var 0 ⊕ var 1 ⊕ var 4 ⊕ (var 2 ⊕ var 3))
    refl)))))

joined : (a a′ a″ e f b b′ b″ : ℕ) → a′ + e + b ≡ a + b′ → a″ + f + b′ ≡ a′ + b″ → a″ + (e + f) + b ≡ a + b″
joined a a′ a″ e f b b′ b″ g h = cancel-right _ _ (a′ + b′) (trans
  (solve (a″ ∷ e ∷ f ∷ b ∷ a′ ∷ b′ ∷ []) (var 0 ⊕ (var 1 ⊕ var 2) ⊕ var 3 ⊕ (var 4 ⊕ var 5))
    ((var 4 ⊕ var 1 ⊕ var 3) ⊕ (var 0 ⊕ var 2 ⊕ var 5)) refl)
  (trans (cong₂ _+_ g h)
  (solve (a ∷ b′ ∷ a′ ∷ b″ ∷ []) ((var 0 ⊕ var 1) ⊕ (var 2 ⊕ var 3)) (var 0 ⊕ var 3 ⊕ (var 2 ⊕ var 1)) refl)))

balanced-after : {s now later : State} {ns ms : List Notice} → Balanced s now ns → Balanced now later ms
  → Balanced s later (ns ++ ms)
balanced-after {s} {now} {later} {ns} {ms} f g t = trans
  (cong (λ e → held t later + e + before t s) (total-++ (one (is-end-of t)) ns ms))
  (joined (held t s) (held t now) (held t later) (ended t ns) (ended t ms) (before t s) (before t now) (before t later) (f t) (g t))

balanced-same : (s now : State) (ns : List Notice) → queues now ≡ queues s → slots now ≡ slots s
  → next-ticket now ≡ next-ticket s → ((t : ℕ) → ended t ns ≡ 0) → Balanced s now ns
balanced-same s now ns q l k e t rewrite q | l | k | e t = cong (_+ before t s) (+-zero (held t s))

-- a state and notices that keep all of that
record Keeps (n : ℕ) (s now : State) (ns : List Notice) : Set where
  constructor keeps
  field
    from : Sound n s → Sound n now × Balanced s now ns
open Keeps public

module _ {n : ℕ} where
  keeps-nothing : {s : State} → Keeps n s s []
  keeps-nothing {s} = keeps λ h → h , balanced-same s s [] refl refl refl λ t → refl

  keeps-after : {s now later : State} {ns ms : List Notice} → Keeps n s now ns → Keeps n now later ms
    → Keeps n s later (ns ++ ms)
  keeps-after {s} {now} {later} {ns} {ms} f g = keeps λ h →
    let (sound , b) = from f h
        (sound′ , c) = from g sound in sound′ , balanced-after {s} {now} {later} {ns} {ms} b c

  keeps-quietly : {s now : State} {ns : List Notice} → (Sound n s → Sound n now) → queues now ≡ queues s → slots now ≡ slots s
    → next-ticket now ≡ next-ticket s → ((t : ℕ) → ended t ns ≡ 0) → Keeps n s now ns
  keeps-quietly {s} {now} {ns} f q l k e = keeps λ h → f h , balanced-same s now ns q l k e
