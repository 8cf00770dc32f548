//! Stand in for Carcara's macros over terms, with the patterns of document 01, section 2: a pattern matches the exact operator and
//! argument count, a digit that integer constant, a letter any term. `(+ ...)` gives the list of arguments.

/// The operator that a token names, as a pattern or as a value.
#[rustfmt::skip]
macro_rules! operator {
    (+) => { $crate::ast::Operator::Add };
    (-) => { $crate::ast::Operator::Sub };
    (*) => { $crate::ast::Operator::Mult };
    (>=) => { $crate::ast::Operator::GreaterEq };
    (=) => { $crate::ast::Operator::Equals };
    (and) => { $crate::ast::Operator::And };
}

/// Matches a term against a pattern: the terms at the pattern's letters, in order, or `None`.
///
/// Behind `@` is a list of what is still to be matched, each a pattern and the variable that holds its term, and the letters
/// that are bound by now. The first of the list is taken apart until none is left.
macro_rules! match_term {
    (($operator:tt ...) = $term:expr) => {
        match AsRef::<$crate::ast::Term>::as_ref($term) {
            $crate::ast::Term::Op($crate::ast::operator!($operator), args) => Some(args.as_slice()),
            _ => None,
        }
    };
    ($pattern:tt = $term:expr) => {{
        let term: &$crate::ast::Rc<$crate::ast::Term> = $term;
        $crate::ast::match_term!(@ [$pattern term] [])
    }};
    (@ [] [$bound:ident]) => { Some($bound) };
    (@ [] [$($bound:ident)+]) => { Some(($($bound),+)) };
    (@ [$digit:literal $term:ident $($rest:tt)*] $bound:tt) => {
        if $term.is_integer($digit) { $crate::ast::match_term!(@ [$($rest)*] $bound) } else { None }
    };
    (@ [($operator:tt $a:tt $b:tt) $term:ident $($rest:tt)*] $bound:tt) => {
        match $term.as_ref() {
            $crate::ast::Term::Op($crate::ast::operator!($operator), args) => match args.as_slice() {
                [a, b] => $crate::ast::match_term!(@ [$a a $b b $($rest)*] $bound),
                _ => None,
            },
            _ => None,
        }
    };
    (@ [$letter:ident $term:ident $($rest:tt)*] [$($bound:ident)*]) => {{
        let $letter = $term;
        $crate::ast::match_term!(@ [$($rest)*] [$($bound)* $letter])
    }};
}

/// As `match_term!`, with the error `TermOfWrongForm` where nothing matches.
macro_rules! match_term_err {
    ($pattern:tt = $term:expr) => {{
        let whole = $term;
        $crate::ast::match_term!($pattern = whole)
            .ok_or_else(|| $crate::checker::error::CheckerError::TermOfWrongForm(stringify!($pattern), whole.clone()))
    }};
}

/// Builds a term in a pool; `{..}` holds an expression for a subterm.
macro_rules! build_term {
    ($pool:expr, {$term:expr}) => { $term };
    ($pool:expr, $digit:literal) => {
        $pool.add($crate::ast::Term::Const($crate::ast::Constant::Integer($digit.into())))
    };
    ($pool:expr, ($operator:tt $($arg:tt)+)) => {{
        let args = vec![$($crate::ast::build_term!($pool, $arg)),+];
        $pool.add($crate::ast::Term::Op($crate::ast::operator!($operator), args))
    }};
}

pub(crate) use {build_term, match_term, match_term_err, operator};
