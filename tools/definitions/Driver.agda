{-# OPTIONS --safe #-}
-- Claims about a driver, proved over the model. After each message it clears the message's type in the slot and writes
-- EOM. The first two claims are about one board, and Agda computes them. The last is about all boards: it follows from
-- a law, which the toolchain proves and Agda takes as given.
module Driver where

open import Prelude
open import arrayvec.ArrayVec using (ArrayVec)
open import board-terms.declared.messages.PortShape using (PortShape)
open import law-board.Seen using (IsSeen)
open import law-board.Theorems using (no-message-waits-unnoticed-after-eom)
open import message-queues.Queues using (queue-of)
open import synic-board.Delivery using (delivers; is-slot-empty)
open import synic-board.Run using (run-of)
open import synic-board.Sound using (IsSound)
open import synic-board.State using (State; opened; processors)
open import synic-board.Step using (step)
open import synic-board.declared.event.Event using (Event)
open import synic-board.declared.event.Reply using (Reply)
open import synic-regs.Registers using (number-of-register)
open import synic-regs.declared.register.Register using (Register)
open import proofs.Numbers using (absurd)
open Event

bytes : List ℕ → ArrayVec ℕ
bytes items = record { items = items }

after : State → List Event → State
after s events = fst (run-of s events)

replies : State → List Event → List Reply
replies s events = fst (snd (run-of s events))

eom : ℕ → Event
eom p = Write p (number-of-register Register.Eom) 0

-- the SynIC of a processor is on, guest page 2 is its message page, and port 3 sends to its source 2
ready : State
ready = after (opened 1 4 0)
  (Write 0 0x40000080 1 ∷ Write 0 0x40000083 0x2001 ∷ Write 0 0x40000092 50 ∷ OpenPort 3 0 2 (PortShape.Messages 16) ∷ [])

-- that many messages, of types first, first + 1 and so on
posts : ℕ → ℕ → List Event
posts first zero = []
posts first (suc n) = Post 3 first (bytes []) ∷ posts (first + 1) n

-- what the driver reads in the slot, that many times; whether it writes EOM
seen : Bool → ℕ → State → List Reply
seen writes-eom zero s = []
seen writes-eom (suc n) s = replies s (Load 0x2200 4 ∷ []) ++
  seen writes-eom n (after s (Store 0x2200 (bytes (0 ∷ 0 ∷ 0 ∷ 0 ∷ [])) ∷ (if writes-eom then eom 0 ∷ [] else [])))

types : List ℕ → List Reply
types = map λ n → Reply.Bytes (bytes (n ∷ 0 ∷ 0 ∷ 0 ∷ []))

sees-all : seen true 4 (after ready (posts 1 4)) ≡ types (1 ∷ 2 ∷ 3 ∷ 4 ∷ [])
sees-all = refl

forgets-eom : seen false 4 (after ready (posts 1 4)) ≡ types (1 ∷ 0 ∷ 0 ∷ 0 ∷ [])
forgets-eom = refl

-- if the slot is empty, no message waits
none-waits : (s : State) (p i : ℕ) → IsSeen s p i → is-slot-empty s p i ≡ true → queue-of (State.queues s) p i ≡ []
none-waits s p i (inl none) is-empty = none
none-waits s p i (inr (full , _)) is-empty = absurd (never full is-empty)
  where
  never : {b : Bool} → b ≡ false → b ≡ true → ⊥
  never refl ()

-- a driver that writes EOM and then finds its slot empty has seen all messages
has-seen-all : no-message-waits-unnoticed-after-eom → (s : State) (p i : ℕ) → IsSound s → p < processors s → i < 16
  → delivers s p ≡ true → let s′ = fst (step s (eom p)) in is-slot-empty s′ p i ≡ true → queue-of (State.queues s′) p i ≡ []
has-seen-all law s p i sound on-board source on = none-waits (fst (step s (eom p))) p i (law s p i 0 sound on-board source on)
