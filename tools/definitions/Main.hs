-- Runs what is made of the definitions on standard input.
module Main where

import qualified Data.ByteString.Lazy as Bytes
import qualified Data.ByteString.Lazy.Char8 as Text
import qualified MAlonzo.Code.Program as Program
import System.Environment (getArgs)
import System.Exit (ExitCode (ExitFailure), exitWith)
import System.IO (stderr)

main :: IO ()
main = do
  arguments <- getArgs
  run <- case arguments of
    ["replay"] -> return Program.replay
    ["replay", "--from", path] -> Bytes.readFile path >>= from . numbers
    ["save"] -> return Program.save
    ["check"] -> return Program.check
    _ -> error "definitions replay [--from IMAGE] | save | check, with the text as standard input"
  Bytes.interact (bytes . run . numbers)

from :: [Integer] -> IO ([Integer] -> [Integer])
from image = case Program.complaint image of
  [] -> return (Program.replayFrom image)
  complaint -> do
    Text.hPutStrLn stderr (bytes complaint)
    exitWith (ExitFailure 3)

numbers :: Bytes.ByteString -> [Integer]
numbers = map toInteger . Bytes.unpack

bytes :: [Integer] -> Bytes.ByteString
bytes = Bytes.pack . map fromInteger
