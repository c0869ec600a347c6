-- Which mutant runs.
module Chosen where

open import Prelude using (ℕ; Bool; _==_)

postulate number : ℕ
{-# FOREIGN GHC import System.IO.Unsafe (unsafePerformIO) #-}
{-# FOREIGN GHC import System.Environment (getEnv) #-}
{-# COMPILE GHC number = unsafePerformIO (fmap read (getEnv "MUTANT")) #-}

chosen : ℕ → Bool
chosen k = k == number
