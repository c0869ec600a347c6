-- What the program made of the definitions runs: bytes in, bytes out. Agda's option --safe admits no COMPILE pragma, so
-- this module alone is without it; it declares nothing else.
module Program where

open import Prelude using (ℕ; List)
open import text-script.Output using (text; saved-text)
import Checked
import Restored

replay save check : List ℕ → List ℕ
replay = text
save = saved-text
check = Checked.check

replay-from : List ℕ → List ℕ → List ℕ
replay-from = Restored.replay-from

complaint : List ℕ → List ℕ
complaint = Restored.complaint

{-# COMPILE GHC replay as replay #-}
{-# COMPILE GHC save as save #-}
{-# COMPILE GHC check as check #-}
{-# COMPILE GHC replay-from as replayFrom #-}
{-# COMPILE GHC complaint as complaint #-}
