{-# OPTIONS --safe #-}
-- The state of an image, or the first wrong line of a text that is none. text-restore says which line may come next, and
-- to which state it leads. Here this is decided: the types say that each answer is right.
module Restored where

open import Prelude
open import Decided
open import arrayvec.ArrayVec using (ArrayVec)
open import board-terms.Messages using (ticket-of)
open import board-terms.declared.messages.Message using (Message)
open import board-terms.declared.messages.PortShape using (PortShape)
open import board-terms.declared.notices.Notice using (Notice)
open import core.Fmt using (decimal)
open import core.Str using (bytes-eq)
open import event-ports.Ports using (is-posted-type; port-at)
open import event-ports.Shapes using (buffers-of)
open import event-ports.declared.ports.Port using (Port)
open import lib.ListN using (length; replicate) renaming (get-or to slice-index-or)
open import message-queues.Image using (FitsSlot; type-of)
open import message-queues.Queues using (HasBuffer; Queues; is-timer-free; most-ports; port-used; processors-of; queue-of)
open import proofs.Equality using (cong; subst; sym; trans)
open import stimer-bank.Timer using (IsSoundTimer; has-no-target; is-enabled; is-periodic)
open import stimer-bank.declared.timer.Timer using (Timer)
open import synic-board.Buffers using (IsHome; SendsTo)
open import synic-board.Delivery using (is-slot-empty)
open import synic-board.Locations using (locations; times)
open import synic-board.Posts using (opened-port)
open import synic-board.Registers using (stored)
open import synic-board.Restoring
open import synic-board.Sound using (IsMessage)
open import synic-board.State
  using (IsWithinLimits; State; opened; ports-of; processors; regs-of; slot-of; with-regs; with-slot-ticket)
open import synic-board.Timed using (HasExpired; IsNear)
open import synic-board.Timers using (at-moment)
open import synic-board.declared.event.Reply using (Reply)
open import synic-regs.Regs using (after-write; masked; with-value)
open import synic-regs.declared.register.Register using (Register)
open import text-base.Lines using (lines-of; rest-of)
open import text-image.Parsing using (piece-at)
open import text-image.declared.piece.Piece using (Piece)
open import text-lines.Items using (Item)
open import text-lines.Reading using (item-at)
open import text-restore.Images using (FirstWrong; IsImage; IsStuck; Leads)
open import text-restore.Restoring
open import text-script.Output using (text-on)
open Message
open Piece hiding (Port; Timer)

-- what a timer, a queue and a slot can be

is-sound : (x : Timer) → Decided (IsSoundTimer x)
is-sound x =
  (same _ _ and is (is-enabled (Timer.config x)) true implies is (has-no-target (Timer.config x)) false)
  and (is (is-enabled (Timer.config x)) true implies holds _ implies refuted (is-none (Timer.due x)))
  and if-some (Timer.due x) (λ d → is (is-enabled (Timer.config x)) true)
  and if-some (Timer.due x) (λ d → holds _)
  and if-some (Timer.due x) (λ d → is (is-periodic (Timer.config x)) false implies same d (Timer.count x))
  and if-some (Timer.due x) (λ d → is (is-periodic (Timer.config x)) true implies holds _)

may-count : (s : State) (x : Timer) → Decided (MayCount s x)
may-count s x = is-sound x and if-some (Timer.due x) (λ d → is (is-periodic (Timer.config x)) true implies holds _)

is-message : (m : Message) → Decided (IsMessage m)
is-message m = refuted (same (type-of m) 0) and holds _ and fits m
  where
  fits : (m : Message) → Decided (FitsSlot m)
  fits (FromPort ticket port kind payload) = holds _
  fits (FromTimer ticket timer expiration) = always

sends-to : (ports : List (Option Port)) (port p i : ℕ) → Decided (SendsTo ports port p i)
sends-to ports port p i = sends (slice-index-or ports port None)
  where
  Sends : Option Port → ℕ → Set
  Sends o buffers = o ≡ Some record { vp = p ; sint = i ; shape = PortShape.Messages buffers }
  sends : (o : Option Port) → Decided (Σ[ buffers ∈ ℕ ] Sends o buffers)
  sends None = no λ ()
  sends (Some record { vp = q ; sint = j ; shape = PortShape.Flags base count }) = no λ ()
  sends (Some record { vp = q ; sint = j ; shape = PortShape.Messages buffers }) with same q p | same j i
  ... | yes refl | yes refl = yes (buffers ,, refl)
  ... | no f | _ = no λ e → f (cong Port.vp (of-some (proof e)))
  ... | yes _ | no g = no λ e → g (cong Port.sint (of-some (proof e)))

is-home : (ports : List (Option Port)) (p i : ℕ) (m : Message) → Decided (IsHome ports p i m)
is-home ports p i (FromPort ticket port kind payload) = is (is-posted-type kind) true and sends-to ports port p i
is-home ports p i (FromTimer ticket timer expiration) = same (fst timer) p and holds _

has-buffer : (qs : Queues) (m : Message) → Decided (HasBuffer qs m)
has-buffer qs (FromPort ticket port kind payload) = holds _ and holds _
has-buffer qs (FromTimer ticket timer expiration) = holds _ and is (is-timer-free qs timer) true

is-within-share : (s : State) (m : Message) → Decided (IsWithinShare s m)
is-within-share s (FromPort ticket port kind payload) = if-some (port-at (ports-of s) port) λ p → holds _
is-within-share s (FromTimer ticket timer expiration) = always

is-unplaced : (s : State) (t : ℕ) → Decided (IsUnplaced s t)
is-unplaced s t = holds _ and same (times t (locations s)) 0

has-expired : (moment i : ℕ) (m : Message) → Decided (HasExpired moment i m)
has-expired moment i (FromPort ticket port kind payload) = always
has-expired moment i (FromTimer ticket timer expiration) = holds _ and holds _ and holds _

may-join : (s : State) (p i : ℕ) (m : Message) → Decided (MayJoin s p i m)
may-join s p i m = is-message m and is-home (State.ports s) p i m and has-buffer (State.queues s) m and is-within-share s m
  and is-unplaced s (ticket-of m) and each (λ x → holds (ltb (ticket-of x) (ticket-of m))) (queue-of (State.queues s) p i)
  and if-some (slot-of s p i) (λ t → holds (ltb t (ticket-of m))) and has-expired (State.moment s) i m

may-occupy : (s : State) (p i t : ℕ) → Decided (MayOccupy s p i t)
may-occupy s p i t = is (is-slot-empty s p i) false and is-none (slot-of s p i)
  and each (λ x → holds (ltb t (ticket-of x))) (queue-of (State.queues s) p i) and is-unplaced s t

-- the state to which a piece leads

is-block : (at : ℕ) (bytes : List ℕ) → Decided (IsBlock at bytes)
is-block at bytes = holds _ and same (at % 256) 0 and is (bytes-eq bytes (replicate 256 0)) false

done : (outcome : State × Reply × List Notice) → Found (λ new → (new , Reply.Done , []) ≡ outcome)
done (s , Reply.Done , []) = found s refl
done (s , Reply.Done , x ∷ notices) = none λ x ()
done (s , Reply.Value n , notices) = none λ x ()
done (s , Reply.Bytes bytes , notices) = none λ x ()
done (s , Reply.Taken vector , notices) = none λ x ()
done (s , Reply.Accepted ticket , notices) = none λ x ()
done (s , Reply.FlagWasClear , notices) = none λ x ()
done (s , Reply.FlagWasSet , notices) = none λ x ()
done (s , Reply.GeneralProtection , notices) = none λ x ()
done (s , Reply.Refused refusal , notices) = none λ x ()

restores : (s : State) (x : Piece) → Found (Restores s x)
restores s (Moment t) = refuted (same t 0) given holds _ given exactly (at-moment s t)
restores s (Lapic p a) = holds _ given exactly (with-processor s p a)
restores s (Control p value) = holds _ given refuted (same value 0) given exactly _
restores s (Overlay p k value) = holds _ given refuted (same value 0) given exactly _
restores s (Source p i value) = holds _ given refuted (same value masked) given done (stored s p (Register.Source i) value)
restores s (Guest n at bytes) = holds _ given is-block at (ArrayVec.items bytes) given exactly _
restores s (Own p k at bytes) =
  holds _ given below (λ i → is-none (slot-of s p i)) 16 given is-block at (ArrayVec.items bytes) given exactly _
restores s (Piece.Port n p i shape) = done (opened-port s n p i shape)
restores s (Piece.Timer p i config count due) = holds _ given holds _ given is _ false given may-count s _ given exactly _
restores s (Queued p i m) = holds _ given holds _ given may-join s p i m given exactly (with-message s p i m)
restores s (Slot p i ticket) = holds _ given holds _ given may-occupy s p i ticket given exactly _
restores s End = exactly s

-- which piece may come next

is-later : (last : ℕ) (x : Piece) → Decided (IsLater last x)
is-later last (Moment t) = holds _
is-later last (Lapic p a) = holds _
is-later last (Control p value) = holds _
is-later last (Overlay p k value) = holds _
is-later last (Source p i value) = holds _
is-later last (Guest n at bytes) = holds _
is-later last (Own p k at bytes) = holds _
is-later last (Piece.Port n p i shape) = holds _
is-later last (Piece.Timer p i config count due) = holds _
is-later last (Queued p i m) = holds _
is-later last (Slot p i ticket) = holds _
is-later last End = holds _

is-in-turn : (n lapics : ℕ) (x : Piece) → Decided (IsInTurn n lapics x)
is-in-turn n lapics (Moment t) = same lapics 0
is-in-turn n lapics (Lapic p a) = same p lapics
is-in-turn n lapics (Control p value) = same lapics n
is-in-turn n lapics (Overlay p k value) = same lapics n
is-in-turn n lapics (Source p i value) = same lapics n
is-in-turn n lapics (Guest m at bytes) = same lapics n
is-in-turn n lapics (Own p k at bytes) = same lapics n
is-in-turn n lapics (Piece.Port m p i shape) = same lapics n
is-in-turn n lapics (Piece.Timer p i config count due) = same lapics n
is-in-turn n lapics (Queued p i m) = same lapics n
is-in-turn n lapics (Slot p i ticket) = same lapics n
is-in-turn n lapics End = same lapics n

continues : (s : State) (last lapics : ℕ) (x : Piece) → Found (Continues s last lapics x)
continues s last lapics x with is-later last x and is-in-turn (processors s) lapics x | restores s x
... | no f | _ = none λ new c → f (fst (proof c) , fst (snd (proof c)))
... | yes _ | none g = none λ new c → g (witness c) (fst (snd (snd (proof c))))
... | yes p | found next r = found (Body next (rank-of x) (lapics-after lapics x)) (next ,, fst p , snd p , r , refl)
-- a board line

is-within-limits : (count pages : ℕ) → Decided (IsWithinLimits count pages)
is-within-limits count pages = holds _ and holds _ and (refuted (same pages 0) implies holds _) and holds _

Sizes : Option Item → ℕ × ℕ × ℕ → Set
Sizes item (count , pages , ticket) = item ≡ Some (Item.Opening count (Some pages) ticket)

sizes : (item : Option Item) → Found (Sizes item)
sizes None = none λ x ()
sizes (Some (Item.Opening count None ticket)) = none λ x ()
sizes (Some (Item.Opening count (Some pages) ticket)) = found (count , pages , ticket) refl
sizes (Some (Item.Summary)) = none λ x ()
sizes (Some (Item.Performs event)) = none λ x ()

limits : {item : Option Item} {count pages ticket n k t : ℕ} → item ≡ Some (Item.Opening count (Some pages) ticket)
  → item ≡ Some (Item.Opening n (Some k) t) → IsWithinLimits n k → IsWithinLimits count pages
limits refl refl p = p

opens : (line : List ℕ) → Found (Opens line)
opens line = by (sizes (item-at line))
  where
  by : Found (Sizes (item-at line)) → Found (Opens line)
  by (none f) =
    none λ new p → f (witness p , witness (proof p) , witness (proof (proof p))) (fst (proof (proof (proof p))))
  by (found (count , pages , ticket) e) with is-within-limits count pages
  ... | yes p = found (Body (opened count pages ticket) 0 0) (count ,, pages ,, ticket ,, e , p , refl)
  ... | no f = none λ new p → f (limits e (fst (proof (proof (proof p)))) (fst (snd (proof (proof (proof p))))))

-- the lines

begins : {s : State} {last lapics : ℕ} {line : List ℕ} {x : Piece} {new : Stage} → piece-at line ≡ Some x
  → Follows (Body s last lapics) line new → Continues s last lapics x new
begins {s = s} {last} {lapics} {new = new} e (y ,, other , c) =
  subst (λ x → Continues s last lapics x new) (of-some (trans (sym other) e)) c

follows : (stage : Stage) (line : List ℕ) → Found (Follows stage line)
follows Untitled line = same-list line (codes "image 1") given exactly Titled
follows Titled line = opens line
follows (Body s last lapics) line = parsed (piece-at line) refl
  where
  parsed : (piece : Option Piece) → @0 piece-at line ≡ piece → Found (Follows (Body s last lapics) line)
  parsed None e = none λ new p → is-not-none (trans (sym e) (fst (proof p)))
  parsed (Some x) e with continues s last lapics x
  ... | found new c = found new (x ,, e , c)
  ... | none f = none λ new p → f new (begins {line = line} e p)

-- some lines lead to a stage after which the next one may not come
Stops : List ℕ → Stage → List (List ℕ) → ℕ → Set
Stops rest stage lines n = Σ[ before ∈ List (List ℕ) ] Σ[ left ∈ List (List ℕ) ] Σ[ end ∈ Stage ]
  lines ≡ before ++ left × n ≡ length before × Leads stage before end × IsStuck end left rest

data Led (rest : List ℕ) (stage : Stage) (lines : List (List ℕ)) : Set where
  all : (new : Stage) → @0 Leads stage lines new → Led rest stage lines
  only : (n : ℕ) → @0 Stops rest stage lines n → Led rest stage lines

after : {rest : List ℕ} {stage next : Stage} {line : List ℕ} {lines : List (List ℕ)} {n : ℕ} → length line ≤ 640
  → Follows stage line next → Stops rest next lines n → Stops rest stage (line ∷ lines) (suc n)
after {next = next} {line} l p (before ,, left ,, end ,, e , c , q , s) =
  line ∷ before ,, left ,, end ,, cong (line ∷_) e , cong suc c , (next ,, l , p , q) , s

led : (rest : List ℕ) (stage : Stage) (lines : List (List ℕ)) → Led rest stage lines
led rest stage [] = all stage refl
led rest stage (line ∷ lines) with holds (leb (length line) 640) | follows stage line
... | no f | _ = only 0 ([] ,, line ∷ lines ,, stage ,, refl , refl , refl , λ next l p → f l)
... | yes l | none f = only 0 ([] ,, line ∷ lines ,, stage ,, refl , refl , refl , λ next l p → f next p)
... | yes l | found next p with led rest next lines
...   | all new q = all new (next ,, l , p , q)
...   | only n q = only (suc n) (after l p q)

-- the text

++-nothing : {A : Set} (xs : List A) → xs ++ [] ≡ xs
++-nothing [] = refl
++-nothing (x ∷ xs) = cong (x ∷_) (++-nothing xs)

data Restored (text : List ℕ) : Set where
  image : (s : State) → @0 IsImage text s → Restored text
  wrong : (k : ℕ) → @0 FirstWrong text k → Restored text

complete : (stage : Stage) → Found (IsComplete stage)
complete Untitled = none λ s ()
complete Titled = none λ s ()
complete (Body s last lapics) with same last (rank-of End)
... | yes e = found s (lapics ,, cong (λ n → Body s n lapics) e)
... | no f = none λ t p → f (cong last-of (proof p))
  where
  last-of : Stage → ℕ
  last-of (Body s last lapics) = last
  last-of stage = 0

restored : (text : List ℕ) → Restored text
restored text with led (rest-of text) Untitled (lines-of text)
... | only n (before ,, left ,, end ,, e , c , q , s) =
  wrong (n + 1) (before ,, left ,, end ,, e , cong (_+ 1) c , q , s)
... | all new q with complete new | same-list (rest-of text) []
...   | found s c | yes e = image s (new ,, q , c , e)
...   | found s c | no f = wrong _ (lines-of text ,, [] ,, new ,, sym (++-nothing _) , refl , q , λ _ _ → f)
...   | none f | _ = wrong _ (lines-of text ,, [] ,, new ,, sym (++-nothing _) , refl , q , λ t p _ → f t p)

-- what a script writes on the board of an image
replay-from : List ℕ → List ℕ → List ℕ
replay-from text script = on (restored text)
  where
  on : Restored text → List ℕ
  on (image s p) = text-on (Some s) script
  on (wrong k p) = []

-- what is said of an image that has a wrong line
complaint : List ℕ → List ℕ
complaint text = of (restored text)
  where
  of : Restored text → List ℕ
  of (image s p) = []
  of (wrong k p) = codes "synicboard: line " ++ decimal k ++ codes " of the image is wrong"
