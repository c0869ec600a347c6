{-# OPTIONS --safe #-}
-- No reply has more than eight bytes.
module proofs.Replies where

open import Prelude
open import core.Option using (option-map-or)
open import lib.ListN using (length; take; drop)
open import arrayvec.ArrayVec using (ArrayVec)
open import event-ports.Ports using (open-refusal; target-of; message-target-of; flag-place-of)
open import event-ports.declared.ports.Port using (Port)
open import board-terms.declared.refusal.Refusal using (Refusal)
open import gpa-space.Space
open import synic-regs.Regs using (Regs; has; enable; is-refused)
open import synic-regs.Registers using (register-of)
open import synic-regs.declared.register.Register using (Register)
open import synic-board.Effects using (Outcome)
open import synic-board.Posts using (closed-at; posted-at; signalled-at; post-refusal)
open import synic-board.Registers using (stored; written-register; read-register)
open import synic-board.Replies using (IsReply)
open import synic-board.State
open import synic-board.Step using (step)
open import synic-board.Stores using (load-reply)
open import synic-board.Suspending using (is-suspended)
open import synic-board.declared.event.Event using (Event)
open import synic-board.declared.event.Reply using (Reply)
open import law-board.Theorems using (no-reply-has-more-than-eight-bytes)
open Event
open Register
open Reply using (GeneralProtection)

Ok? : Outcome → Set
Ok? o = IsReply (fst (snd o))

if-ok : (b : Bool) {x y : Outcome} → Ok? x → Ok? y → Ok? (if b then x else y)
if-ok true p q = p
if-ok false p q = q

option-ok : {A : Set} {f : A → Outcome} (o : Option A) {d : Outcome} → ((a : A) → Ok? (f a)) → Ok? d → Ok? (option-map-or f o d)
option-ok None p q = q
option-ok (Some a) p q = p a

stored-ok : (s : State) (p : ℕ) (r : Register) (v : ℕ) → Ok? (stored s p r v)
stored-ok s p r v = if-ok (is-refused r v) tt tt

register-ok : (s : State) (p : ℕ) (r : Register) (v : ℕ) → Ok? (written-register s p r v)
register-ok s p ReferenceCounter v = tt
register-ok s p Eoi v = tt
register-ok s p Tpr v = tt
register-ok s p Control v = stored-ok s p Control v
register-ok s p Version v = tt
register-ok s p Sief v = stored-ok s p Sief v
register-ok s p Sim v = stored-ok s p Sim v
register-ok s p Eom v = tt
register-ok s p (Source n) v = stored-ok s p (Source n) v
register-ok s p (TimerConfig n) v = tt
register-ok s p (TimerCount n) v = tt

read-register-ok : (s : State) (p : ℕ) (r : Register) → IsReply (read-register s p r)
read-register-ok s p ReferenceCounter = tt
read-register-ok s p Eoi = tt
read-register-ok s p Tpr = tt
read-register-ok s p Control = tt
read-register-ok s p Version = tt
read-register-ok s p Sief = tt
read-register-ok s p Sim = tt
read-register-ok s p Eom = tt
read-register-ok s p (Source n) = tt
read-register-ok s p (TimerConfig n) = tt
read-register-ok s p (TimerCount n) = tt

read-ok : (s : State) (p : ℕ) (o : Option Register) → IsReply (option-map-or (read-register s p) o GeneralProtection)
read-ok s p None = tt
read-ok s p (Some r) = read-register-ok s p r

closed-ok : (s : State) (port : ℕ) (r : Result Port Refusal) → Ok? (closed-at s port r)
closed-ok s port (Ok x) = tt
closed-ok s port (Err x) = tt

posted-ok : (s : State) (port kind : ℕ) (b : ArrayVec ℕ) (r : Result Port Refusal) → Ok? (posted-at s port kind b r)
posted-ok s port kind b (Ok p) = option-ok (post-refusal s port (Port.vp p) (Port.shape p)) (λ _ → tt) tt
posted-ok s port kind b (Err x) = tt

signalled-ok : (s : State) (r : Result (ℕ × ℕ × ℕ) Refusal) → Ok? (signalled-at s r)
signalled-ok s (Ok (p , i , flag)) =
  if-ok (not (has (Regs.control (regs-of s p)) enable && has (Regs.sief (regs-of s p)) enable)) tt
    (if-ok (is-flag-set (space-of s) p i flag) tt tt)
signalled-ok s (Err x) = tt

-- the length of what is loaded
length-take : {A : Set} (n : ℕ) (xs : List A) → length (take n xs) ≤ n
length-take zero xs = tt
length-take (suc n) [] = tt
length-take (suc n) (x ∷ xs) = length-take n xs

at-most : (a b k : ℕ) → a ≤ b → ltb k b ≡ false → a ≤ k
at-most zero b k p q = tt
at-most (suc a) (suc b) (suc k) p q = at-most a b k p q
at-most (suc a) (suc b) zero p ()

loaded-ok : (sp : Space) (address count : ℕ) → IsReply (load-reply (loaded sp address count))
loaded-ok sp address count with ltb 8 count in e
... | b with count == 0
loaded-ok sp address count | true | true = tt
loaded-ok sp address count | true | false = tt
loaded-ok sp address count | false | true = tt
loaded-ok sp address count | false | false
  with not (ltb (address / 4096) (page-count sp))
... | true = tt
... | false with ltb 4096 (address % 4096 + count)
... | true = tt
... | false with is-elsewhere sp (address / 4096)
... | true = tt
... | false = at-most (length (take count xs)) count 8 (length-take count xs) e
  where xs = drop (address % 4096) (visible-page sp (address / 4096))

proof-of : no-reply-has-more-than-eight-bytes
proof-of s (OpenPort port p i shape) = option-ok (open-refusal (ports-of s) port p i shape) (λ _ → tt) tt
proof-of s (ClosePort port) = closed-ok s port (target-of (ports-of s) port)
proof-of s (Write p n v) = if-ok (ltb p (processors s)) (option-ok (register-of n) (λ r → register-ok s p r v) tt) tt
proof-of s (Read p n) = if-ok (ltb p (processors s)) (read-ok s p (register-of n)) tt
proof-of s (Post port kind b) = posted-ok s port kind b (message-target-of (ports-of s) port kind)
proof-of s (Signal port flag) = signalled-ok s (flag-place-of (ports-of s) port flag)
proof-of s (Assert p v) = if-ok (ltb p (processors s)) tt tt
proof-of s (Absorb p part bits) = if-ok (ltb p (processors s)) (if-ok (leb part 3) tt tt) tt
proof-of s (Store a b) = option-ok (refusal-of (space-of s) a (length (ArrayVec.items b))) (λ _ → tt) tt
proof-of s (Load a n) = loaded-ok (space-of s) a n
proof-of s (Tick m) = if-ok (ltb m (State.moment s)) tt (if-ok (m == State.moment s) tt tt)
proof-of s (Take p) = if-ok (ltb p (processors s)) tt tt
proof-of s (Suspend p) = if-ok (ltb p (processors s)) (if-ok (is-suspended s p) tt tt) tt
proof-of s (Resume p) = if-ok (ltb p (processors s)) (if-ok (is-suspended s p) tt tt) tt
proof-of s (Reset p) = if-ok (ltb p (processors s)) tt tt
proof-of s (Send v m) = if-ok (ltb m (2 ^ processors s)) tt tt
