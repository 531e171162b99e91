"""What stands in the files beside what follows from definitions: it was written by hand."""

CODES = '''\
-- How a tree is written as a tree of numbers, one to one: by this a proof tells two trees apart.
use Rattle.std.specs.Prelude.{◌≡◌, ℕ, Bool, List, refl}
use Rattle.std.proofs.Common.{ap, arith, zero, suc}
use Rattle.std.specs.Coded.{Coded, code_by, coded_ℕ, coded_ℤ, coded_bool, coded_list, coded×}
use base.Stored.{Gv, gnil, gnum, gcons, num}
use Rattle.sopl_base.specs.declared.comparison.CmpOp.{CmpOp}
use Rattle.sopl_base.specs.declared.comparison.CmpOp.TheVariants.{Eq, Ne, Lt, Le, Gt, Ge}
use Rattle.sopl_base.specs.declared.extreme.Extreme.{Extreme}
use Rattle.sopl_base.specs.declared.extreme.Extreme.TheVariants.{Least, Greatest}
use Rattle.sopl_ast.specs.declared.operators.Function.{Function}
use Rattle.sopl_ast.specs.declared.operators.Function.TheVariants.{Negative, Size}
use Rattle.sopl_ast.specs.declared.operators.MulOp.{MulOp}
use Rattle.sopl_ast.specs.declared.operators.MulOp.TheVariants.{Times, Div, Mod}
use Rattle.sopl_ast.specs.Tree.{Tree, Node, Shape, Lit, Name, Index, Call, Add, Mul, Cmp, Not, And, Or, Implies, Sum, Selected, AllDifferent, Cumulative, Trees, no_tree}
use Rattle.sopl_ast.specs.Tree.{tree, Terms, no_term, term, Factors, no_factor, factor, Binders, no_binder, binder, Range, Named, Ends}
use Rattle.sopl_ast.specs.Lists.{BinderTree, Product}

abbrev prefix : Gv → Gv
prefix gnil = gnil
prefix (gnum n) = gnil
prefix (gcons a b) = a

abbrev back : Gv → Gv
back gnil = gnil
back (gnum n) = gnil
back (gcons a b) = b

-- the parts of two equal pairs are equal
abbrev pub pairs : {a b c d : Gv} → gcons a b ≡ gcons c d → (a ≡ c) × (b ≡ d)
pairs e = (ap prefix e, ap back e)

-- two equal codes of numbers are of one number
abbrev pub inj_num : (x y : ℕ) → gnum x ≡ gnum y → x ≡ y
inj_num x y e = ap num e

'''

CODED = '''\
-- a tree
abbrev pub coded_tree : Coded Tree
coded_tree = record { code = code_tree; inj = inj_tree }

-- a range
abbrev pub coded_range : Coded Range
coded_range = record { code = code_range; inj = inj_range }

-- expressions in order
abbrev pub coded_trees : Coded (List Tree)
coded_trees = coded_list coded_tree

-- the parts of a chain of `+` and `-`
abbrev pub coded_terms : Coded (List (Bool × Tree))
coded_terms = coded_list (coded× coded_bool coded_tree)

-- what follows the first part of a product
abbrev pub coded_factors : Coded (List (MulOp × Tree))
coded_factors = coded_list (coded× coded_mul coded_tree)

-- a product, as its first part and the others
abbrev pub coded_product : Coded Product
coded_product =
    code_by (Tree × List (MulOp × Tree)) (coded× coded_tree coded_factors) (λ p. (p.first, p.others)) (λ p. record { first = p.0; others = p.1 })
    (λ _. refl)

-- a binder, as its name, its place and its range
abbrev pub coded_binder : Coded BinderTree
coded_binder =
    code_by (List ℕ × (ℕ × Range)) (coded× coded_text (coded× coded_ℕ coded_range)) (λ b. (b.name, (b.at, b.range)))
    (λ p. record { name = p.0; at = p.1.0; range = p.1.1 }) (λ _. refl)

-- binders in order
abbrev pub coded_binders : Coded (List BinderTree)
coded_binders = coded_list coded_binder
'''
