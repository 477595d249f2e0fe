-- The grammar examples/calc.g, as `pgw haskell` prints it: change the grammar and print it again.
--
-- It is accepted: no text has two trees, no choice loses an alternative, and every parse ends.
-- The rule sum is sum' here.
module Calc
  ( Parser, Tree (..), parseText
  , Operator (..), Role (..), initialTable
  , file
  , sum'
  , term
  , number
  , blanks
  ) where

import Control.Monad (void, when)
import Data.Char (isAlpha, isAsciiLower, isDigit)
import Text.Parsec ((<?>), ParseError, Parsec, SourceName, anyChar, between, choice, count, eof,
  getInput, getPosition, getState, many, many1, oneOf, parserFail, parserZero, putState, runParser,
  satisfy, string)
import Text.Parsec.Expr (Assoc (..), buildExpressionParser)
import Text.Parsec.Pos (updatePosChar)
import qualified Text.Parsec.Expr as E

-- The grammar

file :: Parser [Tree]
file = concat <$> sequence
  [ concat <$> many (concat <$> sequence [declare isAlpha, skip (string ";"), blanks])
  , sum'
  ]

sum' :: Parser [Tree]
sum' = expr node node node term

term :: Parser [Tree]
term = concat <$> sequence [choice [number, between (string "(") (string ")") sum'], blanks]

number :: Parser [Tree]
number = node "num" <$> text (many1 (satisfy isDigit) <?> "number")

blanks :: Parser [Tree]
blanks = skip (many (oneOf " \n"))

-- The operators to begin with.
initialTable :: [Operator]
initialTable =
  [ Operator Infix 4 "<"
  , Operator Infixr 5 ">>"
  , Operator Infixl 6 "+"
  , Operator Infixl 6 "-"
  , Operator Infixl 7 "*"
  , Operator Prefix 8 "-"
  , Operator Postfix 9 "!"
  ]

isOperatorCharacter :: Char -> Bool
isOperatorCharacter = (`elem` "+-*/<>=!")

isGap :: Char -> Bool
isGap = (`elem` " \n")

reservedSymbols :: [String]
reservedSymbols = ["="]

mostOperators :: Int
mostOperators = 64

-- The trees of a whole text, or its error. The name stands in errors.
parseText :: SourceName -> String -> Either ParseError [Tree]
parseText = runParser (file <* eof) initialTable

-- What every module has, as far as the grammar uses it

data Tree = Leaf String | Node String [Tree] deriving (Eq, Show)

type Builder = String -> [Tree] -> [Tree]

data Role = Infixl | Infixr | Infix | Prefix | Postfix deriving (Eq, Show)

data Operator = Operator Role Int String deriving (Eq, Show)

type Parser = Parsec String [Operator]

-- One leaf with all that was read, whose time grows with that and not with the rest of the input.
text :: Parser a -> Parser [Tree]
text p' = do
  rest' <- getInput
  from' <- getPosition
  _ <- p'
  to' <- getPosition
  return [Leaf (between' from' to' rest')]
  where
    between' s' t' (c' : r') | s' /= t' = c' : between' (updatePosChar s' c') t' r'
    between' _ _ _ = ""

-- No trees of what was read.
skip :: Parser a -> Parser [Tree]
skip p' = [] <$ p'

-- One node with a label around trees.
node :: String -> [Tree] -> [Tree]
node label' kids' = [Node label' kids']

-- Operators of the table that is in force where it begins, around a term. The builders are those of
-- infix, prefix and postfix operators.
expr :: Builder -> Builder -> Builder -> Parser [Tree] -> Parser [Tree]
expr infix' prefix' postfix' term' = do
  table' <- getState
  buildExpressionParser (filter (not . null) [entries' k' table' | k' <- [9, 8 .. 0]]) term'
  where
    entries' k' table' = [entry' role' symbol' | Operator role' n' symbol' <- table', n' == k']
    entry' role' symbol' = case role' of
      Infixl -> E.Infix (between' symbol' <$ operator symbol') AssocLeft
      Infixr -> E.Infix (between' symbol' <$ operator symbol') AssocRight
      Infix -> E.Infix (between' symbol' <$ operator symbol') AssocNone
      Prefix -> E.Prefix (prefix' symbol' <$ operator symbol')
      Postfix -> E.Postfix (postfix' symbol' <$ operator symbol')
    between' symbol' l' r' = infix' symbol' (l' ++ r')

-- An operator is the longest run of operator characters that stands there, with the gap behind it.
operator :: String -> Parser ()
operator symbol' = do
  (s', rest') <- span isOperatorCharacter <$> getInput
  when (s' /= symbol') refuse
  eat (length s' + length (takeWhile isGap rest'))

-- A declaration of an operator, which is in force from its end on.
declare :: (Char -> Bool) -> Parser [Tree]
declare p' = do
  word' <- takeWhile isAsciiLower <$> getInput
  rest' <- drop (length word') <$> getInput
  case lookup word' roles' of
    Just role' | not (any p' (take 1 rest')) -> eat (length word') >> gap' >> declared' word' role'
    _ -> refuse <?> "declaration"
  where
    roles' =
      [ ("infixl", Infixl), ("infixr", Infixr), ("infix", Infix)
      , ("prefix", Prefix), ("postfix", Postfix) ]
    gap' = getInput >>= eat . length . takeWhile isGap
    declared' word' role' = do
      n' <- satisfy isDigit <?> "precedence"
      gap'
      symbol' <- takeWhile isOperatorCharacter <$> getInput
      when (null symbol') (refuse <?> "operator symbol")
      table' <- getState
      let o' = Operator role' (fromEnum n' - fromEnum '0') symbol'
      case refusal table' o' of
        Just r' -> parserFail ("operator " ++ show symbol' ++ " not admitted: " ++ r')
        Nothing -> return ()
      eat (length symbol')
      gap'
      putState (table' ++ [o'])
      return (node "declare" [Leaf word', Leaf [n'], Leaf symbol'])

-- Why a table doesn't admit an operator.
refusal :: [Operator] -> Operator -> Maybe String
refusal table' (Operator role' _ symbol')
  | length symbol' > 16 = Just "A1"
  | symbol' `elem` reservedSymbols = Just "A2"
  | role' == Prefix, or [s' == symbol' | Operator Prefix _ s' <- table'] = Just "A3"
  | role' /= Prefix, or [s' == symbol' | Operator r' _ s' <- table', r' /= Prefix] = Just "A4"
  | length table' >= mostOperators = Just "A5"
  | otherwise = Nothing

-- Takes so many characters, and leaves no message behind, as a repetition would.
eat :: Int -> Parser ()
eat n' = when (n' > 0) (void (count n' anyChar))

-- Takes nothing, and names the character that stands there.
refuse :: Parser a
refuse = satisfy (const False) >> parserZero
