//! The workloads of the benchmark in plain Rust: polynomials as sorted lists of terms.
//!
//! usage: plain WORKLOAD REPETITIONS, where WORKLOAD is `product`, `by-term`, `sum` or `step`.

use std::cmp::Ordering;
use std::hint::black_box;

// ---- symbols and rankings

#[derive(Clone, Copy, PartialEq, Eq, Debug)]
enum Symbol {
    Independent(u8),
    Derivative { dependent: u8, counts: [u8; 4] },
}

/// The total order of a derivation operator.
fn order(counts: [u8; 4]) -> u32 {
    counts.iter().map(|&k| u32::from(k)).sum()
}

/// How the derivatives of a block are compared.
#[derive(Clone, Copy)]
#[allow(dead_code)]
enum Kind {
    GrlexA,
    GrlexB,
    DegrevA,
    DegrevB,
    LexA,
}

struct Block {
    kind: Kind,
    dependents: Vec<u8>,
}

/// The block of a dependent, the greatest first, its kind, and the place in the block.
#[derive(Clone, Copy)]
struct Standing {
    block: usize,
    kind: Kind,
    place: usize,
}

struct Ranking {
    standings: Vec<Standing>,
}

impl Ranking {
    fn new(blocks: &[Block]) -> Ranking {
        let count = blocks.iter().map(|block| block.dependents.len()).sum();
        let mut standings = vec![
            Standing {
                block: 0,
                kind: Kind::LexA,
                place: 0
            };
            count
        ];
        for (number, block) in blocks.iter().enumerate() {
            for (place, &dependent) in block.dependents.iter().enumerate() {
                standings[usize::from(dependent)] = Standing {
                    block: number,
                    kind: block.kind,
                    place,
                };
            }
        }
        Ranking { standings }
    }

    fn compare(&self, a: Symbol, b: Symbol) -> Ordering {
        match (a, b) {
            (Symbol::Independent(i), Symbol::Independent(j)) => j.cmp(&i),
            (Symbol::Independent(_), Symbol::Derivative { .. }) => Ordering::Less,
            (Symbol::Derivative { .. }, Symbol::Independent(_)) => Ordering::Greater,
            (
                Symbol::Derivative {
                    dependent: u,
                    counts: s,
                },
                Symbol::Derivative {
                    dependent: v,
                    counts: t,
                },
            ) => {
                let first = self.standings[usize::from(u)];
                let second = self.standings[usize::from(v)];
                if first.block != second.block {
                    return second.block.cmp(&first.block);
                }
                let total = || order(s).cmp(&order(t));
                let lex = || s.cmp(&t);
                let reverse_lex = || t.iter().rev().cmp(s.iter().rev());
                let place = || second.place.cmp(&first.place);
                match first.kind {
                    Kind::GrlexA => total().then_with(lex).then_with(place),
                    Kind::GrlexB => total().then_with(place).then_with(lex),
                    Kind::DegrevA => total().then_with(reverse_lex).then_with(place),
                    Kind::DegrevB => total().then_with(place).then_with(reverse_lex),
                    Kind::LexA => lex().then_with(place),
                }
            }
        }
    }
}

// ---- monomials

/// Symbols with positive exponents, the greatest symbol first.
type Monomial = Vec<(Symbol, u16)>;

fn compare_monomials(ranking: &Ranking, a: &[(Symbol, u16)], b: &[(Symbol, u16)]) -> Ordering {
    match a.iter().zip(b).find(|(p, q)| p != q) {
        Some((p, q)) => ranking.compare(p.0, q.0).then(p.1.cmp(&q.1)),
        None => a.len().cmp(&b.len()),
    }
}

/// The monomials of both, put together at each symbol that both have; `None` where that is.
fn merge_monomials(
    ranking: &Ranking,
    a: &[(Symbol, u16)],
    b: &[(Symbol, u16)],
    join: impl Fn(u16, u16) -> Option<u16>,
) -> Option<Monomial> {
    let mut merged = Vec::with_capacity(a.len() + b.len());
    let (mut i, mut j) = (0, 0);
    while i < a.len() && j < b.len() {
        match ranking.compare(a[i].0, b[j].0) {
            Ordering::Greater => {
                merged.push(a[i]);
                i += 1;
            }
            Ordering::Less => {
                merged.push(b[j]);
                j += 1;
            }
            Ordering::Equal => {
                merged.push((a[i].0, join(a[i].1, b[j].1)?));
                i += 1;
                j += 1;
            }
        }
    }
    merged.extend_from_slice(&a[i..]);
    merged.extend_from_slice(&b[j..]);
    Some(merged)
}

/// The product of two monomials; `None` where an exponent is too great.
fn multiply(ranking: &Ranking, a: &[(Symbol, u16)], b: &[(Symbol, u16)]) -> Option<Monomial> {
    merge_monomials(ranking, a, b, u16::checked_add)
}

// ---- polynomials

/// Why there is no result.
enum Stop {
    /// The absolute values of what is added up at some monomial pass `GREATEST`.
    Wide,
    Large(Limit),
}

#[derive(Debug)]
enum Limit {
    Order,
    Exponent,
    Symbols,
    Terms,
}

const GREATEST: u128 = i128::MAX as u128;
const MOST_ORDER: u32 = 60;
const MOST_SYMBOLS: usize = 64;
const MOST_TERMS: usize = 4096;

#[derive(Clone)]
struct Term {
    monomial: Monomial,
    coefficient: i128,
}

/// Terms, the greatest monomial first, and the greatest exponent of each symbol that occurs.
struct Polynomial {
    terms: Vec<Term>,
    degrees: Monomial,
}

/// What is added up at a monomial: the sum, and the sum of the absolute values, or `None` where
/// that passes `GREATEST`.
struct Cell {
    monomial: Monomial,
    amount: Option<(i128, u128)>,
}

fn add_amounts(a: Option<(i128, u128)>, b: Option<(i128, u128)>) -> Option<(i128, u128)> {
    let ((sum, majorant), (more, by)) = (a?, b?);
    let majorant = majorant + by;
    (majorant <= GREATEST).then(|| (sum + more, majorant))
}

/// The cells of both lists, in one pass.
fn merge(ranking: &Ranking, a: Vec<Cell>, b: Vec<Cell>) -> Vec<Cell> {
    let mut merged = Vec::with_capacity(a.len() + b.len());
    let (mut a, mut b) = (a.into_iter().peekable(), b.into_iter().peekable());
    loop {
        let order = match (a.peek(), b.peek()) {
            (Some(p), Some(q)) => compare_monomials(ranking, &p.monomial, &q.monomial),
            (Some(_), None) => Ordering::Greater,
            (None, Some(_)) => Ordering::Less,
            (None, None) => return merged,
        };
        match order {
            Ordering::Greater => merged.extend(a.next()),
            Ordering::Less => merged.extend(b.next()),
            Ordering::Equal => {
                if let (Some(p), Some(q)) = (a.next(), b.next()) {
                    let amount = add_amounts(p.amount, q.amount);
                    merged.push(Cell {
                        monomial: p.monomial,
                        amount,
                    });
                }
            }
        }
    }
}

/// The products of a term with the terms of a polynomial.
fn row(ranking: &Ranking, term: &Term, q: &[Term]) -> Result<Vec<Cell>, Stop> {
    q.iter()
        .map(|other| {
            let monomial = multiply(ranking, &term.monomial, &other.monomial)
                .ok_or(Stop::Large(Limit::Exponent))?;
            let amount = term
                .coefficient
                .checked_mul(other.coefficient)
                .filter(|product| product.unsigned_abs() <= GREATEST)
                .map(|product| (product, product.unsigned_abs()));
            Ok(Cell { monomial, amount })
        })
        .collect()
}

/// What the products of all pairs add up to: the two halves of `p` are taken apart.
fn gather(ranking: &Ranking, p: &[Term], q: &[Term]) -> Result<Vec<Cell>, Stop> {
    let cells = match p {
        [] => Vec::new(),
        [term] => row(ranking, term, q)?,
        _ => {
            let (first, second) = p.split_at(p.len() / 2);
            merge(
                ranking,
                gather(ranking, first, q)?,
                gather(ranking, second, q)?,
            )
        }
    };
    if cells.len() > MOST_TERMS {
        return Err(Stop::Large(Limit::Terms));
    }
    Ok(cells)
}

/// The sums of cells.
fn terms_of(cells: Vec<Cell>) -> Result<Vec<Term>, Stop> {
    cells
        .into_iter()
        .map(|Cell { monomial, amount }| {
            let (coefficient, _) = amount.ok_or(Stop::Wide)?;
            Ok(Term {
                monomial,
                coefficient,
            })
        })
        .collect()
}

fn exponent_of(monomial: &[(Symbol, u16)], symbol: Symbol) -> u16 {
    monomial
        .iter()
        .find(|power| power.0 == symbol)
        .map_or(0, |power| power.1)
}

fn gcd(mut a: u128, mut b: u128) -> u128 {
    while b != 0 {
        (a, b) = (b, a % b);
    }
    a
}

/// The terms that have a symbol, each with the symbol taken once less, times what it is taken to.
fn derivation_row(
    ranking: &Ranking,
    terms: &[Term],
    symbol: Symbol,
    next: Option<Symbol>,
) -> Result<Vec<Cell>, Stop> {
    let mut cells = Vec::with_capacity(terms.len());
    for term in terms {
        let Some(place) = term.monomial.iter().position(|power| power.0 == symbol) else {
            continue;
        };
        let (front, rest) = term.monomial.split_at(place);
        let raised: Vec<(Symbol, u16)> = next.iter().map(|&next| (next, 1)).collect();
        let mut monomial = multiply(ranking, front, &raised).ok_or(Stop::Large(Limit::Exponent))?;
        let exponent = rest[0].1;
        if exponent > 1 {
            monomial.push((symbol, exponent - 1));
        }
        monomial.extend_from_slice(&rest[1..]);
        let amount = term
            .coefficient
            .checked_mul(i128::from(exponent))
            .filter(|product| product.unsigned_abs() <= GREATEST)
            .map(|product| (product, product.unsigned_abs()));
        cells.push(Cell { monomial, amount });
    }
    Ok(cells)
}

/// The rows of all rates, the halves of which are taken apart.
fn derivation_cells(
    ranking: &Ranking,
    terms: &[Term],
    rates: &[(Symbol, Option<Symbol>)],
) -> Result<Vec<Cell>, Stop> {
    match rates {
        [] => Ok(Vec::new()),
        [(symbol, next)] => derivation_row(ranking, terms, *symbol, *next),
        _ => {
            let (first, second) = rates.split_at(rates.len() / 2);
            Ok(merge(
                ranking,
                derivation_cells(ranking, terms, first)?,
                derivation_cells(ranking, terms, second)?,
            ))
        }
    }
}

/// The greatest exponents in terms.
fn degrees_of(ranking: &Ranking, terms: &[Term]) -> Monomial {
    let mut degrees = Vec::new();
    for term in terms {
        if let Some(merged) = merge_monomials(ranking, &degrees, &term.monomial, larger) {
            degrees = merged;
        }
    }
    degrees
}

fn larger(a: u16, b: u16) -> Option<u16> {
    Some(a.max(b))
}

/// The polynomial of terms that may be zero, where `degrees` are those of the support.
fn polynomial(ranking: &Ranking, mut terms: Vec<Term>, degrees: Monomial) -> Polynomial {
    let count = terms.len();
    terms.retain(|term| term.coefficient != 0);
    if terms.len() == count {
        Polynomial { terms, degrees }
    } else {
        let degrees = degrees_of(ranking, &terms);
        Polynomial { terms, degrees }
    }
}

impl Polynomial {
    /// `coefficient * symbol^exponent`.
    fn power(coefficient: i128, symbol: Symbol, exponent: u16) -> Result<Polynomial, Stop> {
        let monomial = if exponent == 0 {
            vec![]
        } else {
            vec![(symbol, exponent)]
        };
        if let (Symbol::Derivative { counts, .. }, 1..) = (symbol, exponent)
            && order(counts) > MOST_ORDER
        {
            return Err(Stop::Large(Limit::Order));
        }
        let degrees = monomial.clone();
        Ok(Polynomial {
            terms: vec![Term {
                monomial,
                coefficient,
            }],
            degrees,
        })
    }

    fn add(&self, ranking: &Ranking, other: &Polynomial) -> Result<Polynomial, Stop> {
        let (a, b) = (&self.terms, &other.terms);
        let mut terms = Vec::with_capacity(a.len().max(b.len()));
        let mut is_wide = false;
        let (mut i, mut j) = (0, 0);
        while i < a.len() && j < b.len() {
            match compare_monomials(ranking, &a[i].monomial, &b[j].monomial) {
                Ordering::Greater => {
                    terms.push(a[i].clone());
                    i += 1;
                }
                Ordering::Less => {
                    terms.push(b[j].clone());
                    j += 1;
                }
                Ordering::Equal => {
                    let (x, y) = (a[i].coefficient, b[j].coefficient);
                    is_wide |= x.unsigned_abs() + y.unsigned_abs() > GREATEST;
                    let monomial = a[i].monomial.clone();
                    terms.push(Term {
                        monomial,
                        coefficient: x.wrapping_add(y),
                    });
                    i += 1;
                    j += 1;
                }
            }
        }
        terms.extend_from_slice(&a[i..]);
        terms.extend_from_slice(&b[j..]);
        let degrees = merge_monomials(ranking, &self.degrees, &other.degrees, larger)
            .expect("the larger of two exponents is one of them");
        if degrees.len() > MOST_SYMBOLS {
            return Err(Stop::Large(Limit::Symbols));
        }
        if terms.len() > MOST_TERMS {
            return Err(Stop::Large(Limit::Terms));
        }
        if is_wide {
            return Err(Stop::Wide);
        }
        Ok(polynomial(ranking, terms, degrees))
    }

    fn mul(&self, ranking: &Ranking, other: &Polynomial) -> Result<Polynomial, Stop> {
        if self.terms.is_empty() || other.terms.is_empty() {
            return Ok(Polynomial {
                terms: Vec::new(),
                degrees: Vec::new(),
            });
        }
        let degrees =
            multiply(ranking, &self.degrees, &other.degrees).ok_or(Stop::Large(Limit::Exponent))?;
        if degrees.len() > MOST_SYMBOLS {
            return Err(Stop::Large(Limit::Symbols));
        }
        let (few, many) = if self.terms.len() <= other.terms.len() {
            (self, other)
        } else {
            (other, self)
        };
        let cells = gather(ranking, &few.terms, &many.terms)?;
        Ok(polynomial(ranking, terms_of(cells)?, degrees))
    }

    /// What a derivation takes each symbol to, where that is not zero: one, or a further derivative.
    fn rates(&self, i: usize) -> Result<Vec<(Symbol, Option<Symbol>)>, Stop> {
        let mut rates = Vec::new();
        for &(symbol, _) in &self.degrees {
            match symbol {
                Symbol::Independent(j) if usize::from(j) == i => rates.push((symbol, None)),
                Symbol::Independent(_) => {}
                Symbol::Derivative {
                    dependent,
                    mut counts,
                } => {
                    if order(counts) == MOST_ORDER {
                        return Err(Stop::Large(Limit::Order));
                    }
                    counts[i] += 1;
                    rates.push((symbol, Some(Symbol::Derivative { dependent, counts })));
                }
            }
        }
        Ok(rates)
    }

    /// What the derivation with these rates makes.
    fn derived(
        &self,
        ranking: &Ranking,
        rates: &[(Symbol, Option<Symbol>)],
    ) -> Result<Polynomial, Stop> {
        let cells = derivation_cells(ranking, &self.terms, rates)?;
        let mut degrees = Vec::new();
        for cell in &cells {
            if let Some(merged) = merge_monomials(ranking, &degrees, &cell.monomial, larger) {
                degrees = merged;
            }
        }
        if degrees.len() > MOST_SYMBOLS {
            return Err(Stop::Large(Limit::Symbols));
        }
        if cells.len() > MOST_TERMS {
            return Err(Stop::Large(Limit::Terms));
        }
        Ok(polynomial(ranking, terms_of(cells)?, degrees))
    }

    /// The terms with `symbol^exponent`, each with `left` as its exponent of the symbol.
    fn part(&self, ranking: &Ranking, symbol: Symbol, exponent: u16, left: u16) -> Polynomial {
        let terms: Vec<Term> = self
            .terms
            .iter()
            .filter(|term| exponent_of(&term.monomial, symbol) == exponent)
            .map(|term| Term {
                monomial: term
                    .monomial
                    .iter()
                    .map(|power| if power.0 == symbol { (symbol, left) } else { *power })
                    .filter(|power| power.1 != 0)
                    .collect(),
                coefficient: term.coefficient,
            })
            .collect();
        let degrees = degrees_of(ranking, &terms);
        Polynomial { terms, degrees }
    }

    fn content(&self) -> u128 {
        self.terms
            .iter()
            .fold(0, |all, term| gcd(term.coefficient.unsigned_abs(), all))
    }

    fn divide(&mut self, by: i128) {
        for term in &mut self.terms {
            term.coefficient /= by;
        }
    }

    /// The step by the derivative of `q` by the i-th independent; `None` where it is no step.
    fn step(&self, ranking: &Ranking, q: &Polynomial, i: usize) -> Result<Option<Polynomial>, Stop> {
        let Some(&(lead, _)) = q.degrees.first() else {
            return Ok(None);
        };
        let Symbol::Derivative { dependent, mut counts } = lead else {
            return Ok(None);
        };
        counts[i] += 1;
        let v = Symbol::Derivative { dependent, counts };
        let degree = exponent_of(&self.degrees, v);
        if degree == 0 {
            return Ok(None);
        }
        let derivative = q.derived(ranking, &q.rates(i)?)?;
        let mut multiplier = q.derived(ranking, &[(lead, None)])?;
        let mut top = self.part(ranking, v, degree, degree - 1);
        let common = gcd(multiplier.content(), top.content()) as i128;
        multiplier.divide(common);
        top.divide(common);
        let left = multiplier.mul(ranking, self)?;
        let mut right = top.mul(ranking, &derivative)?;
        right.divide(-1);
        let mut rest = left.add(ranking, &right)?;
        if let Some(first) = rest.terms.first() {
            let sign = if first.coefficient < 0 { -1 } else { 1 };
            rest.divide(sign * rest.content() as i128);
        }
        Ok(Some(rest))
    }

    fn exponent_at(&self, place: usize, symbol: Symbol) -> u16 {
        exponent_of(&self.terms[place].monomial, symbol)
    }
}

// ---- the workloads

/// The symbols of the workloads: two independents, and two dependents with five derivatives each.
fn symbols() -> Vec<Symbol> {
    let operators = [
        [0, 0, 0, 0],
        [1, 0, 0, 0],
        [0, 1, 0, 0],
        [2, 0, 0, 0],
        [1, 1, 0, 0],
    ];
    let mut symbols = Vec::new();
    for counts in operators {
        symbols.push(Symbol::Derivative {
            dependent: 0,
            counts,
        });
        symbols.push(Symbol::Derivative {
            dependent: 1,
            counts,
        });
    }
    symbols.push(Symbol::Independent(0));
    symbols.push(Symbol::Independent(1));
    symbols
}

/// The divisor of the step: `u[x]^2*v + 3*u*v`, where x is the first independent.
fn divisor(ranking: &Ranking, symbols: &[Symbol]) -> Result<Polynomial, Stop> {
    let v = Polynomial::power(1, symbols[1], 1)?;
    let first = Polynomial::power(1, symbols[2], 2)?.mul(ranking, &v)?;
    let second = Polynomial::power(3, symbols[0], 1)?.mul(ranking, &v)?;
    first.add(ranking, &second)
}

/// The product of a power of each symbol plus a number.
fn spread(ranking: &Ranking, symbols: &[Symbol], number: i128) -> Result<Polynomial, Stop> {
    let mut product = Polynomial::power(1, symbols[0], 0)?;
    for (place, &symbol) in symbols.iter().enumerate() {
        let power = Polynomial::power(1, symbol, place as u16 % 3 + 1)?;
        let constant = Polynomial::power(number, symbol, 0)?;
        product = product.mul(ranking, &power.add(ranking, &constant)?)?;
    }
    Ok(product)
}

/// A number that tells polynomials apart, from the coefficients and exponents of all terms.
fn checksum(p: &Polynomial, symbols: &[Symbol]) -> u128 {
    let mut sum = p.terms.len() as u128;
    for (place, term) in p.terms.iter().enumerate() {
        sum = mixed(sum, term.coefficient.unsigned_abs());
        for &symbol in symbols {
            sum = mixed(sum, u128::from(p.exponent_at(place, symbol)));
        }
    }
    sum
}

fn mixed(sum: u128, value: u128) -> u128 {
    sum.wrapping_mul(1_000_003).wrapping_add(value)
}

fn run(workload: &str, repetitions: u64) -> Result<(), Stop> {
    let ranking = Ranking::new(&[Block {
        kind: Kind::GrlexA,
        dependents: vec![0, 1],
    }]);
    let symbols = symbols();
    let p = spread(&ranking, &symbols[..6], 2)?;
    let q = spread(&ranking, &symbols[6..], 3)?;
    let large = p.mul(&ranking, &q)?;
    let other = spread(&ranking, &symbols, 5)?;
    let term = Polynomial::power(3, symbols[4], 2)?;
    let thousand = spread(&ranking, &symbols[..10], 2)?;
    let divisor = divisor(&ranking, &symbols)?;
    let operation = || match workload {
        "product" => black_box(&p).mul(&ranking, &q),
        "by-term" => black_box(&term).mul(&ranking, &large),
        "sum" => black_box(&large).add(&ranking, &other),
        "step" => Ok(black_box(&thousand)
            .step(&ranking, &divisor, 0)?
            .expect("this is a step")),
        _ => panic!("no workload has this name"),
    };

    let mut terms = 0;
    for _ in 0..repetitions {
        terms += black_box(operation()?).terms.len();
    }
    let result = operation()?;
    println!(
        "{terms} {} {}",
        result.terms.len(),
        checksum(&result, &symbols)
    );
    Ok(())
}

fn main() {
    let words: Vec<String> = std::env::args().skip(1).collect();
    let [workload, repetitions] = words.as_slice() else {
        panic!("usage: plain WORKLOAD REPETITIONS");
    };
    let repetitions = repetitions.parse().expect("a number of repetitions");
    match run(workload, repetitions) {
        Ok(()) => {}
        Err(Stop::Wide) => panic!("a coefficient is too wide"),
        Err(Stop::Large(limit)) => panic!("the limit {limit:?} is passed"),
    }
}
