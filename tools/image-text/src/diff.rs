//! A submitted and a returned body as one listing.

use crate::print::{blocks, has_blocks, Printer};
use crate::tree::*;

const SAME: &str = "  ";
const INSERTED: &str = "+ ";
const WRAPPED: &str = "~ ";
const ONLY_SUBMITTED: &str = "- ";
const ONLY_RETURNED: &str = "! ";

/// The listing; and what shows that the returned image is not the submitted one with insertions, if anything does.
pub struct Diff {
    pub listing: String,
    pub difference: Option<String>,
}

/// A line begins with `+` if its delete was inserted, with `~` if a delete was put round an unused result. If there is more to
/// it, `-` marks what only the submitted body has and `!` what only the returned one has.
pub fn diff(submitted: &Image, returned: &Image) -> Diff {
    if let Some(part) = table_that_differs(submitted, returned) {
        let difference = Some(format!("they differ before their bodies, in {part}"));
        return Diff { listing: String::new(), difference };
    }
    let mut d = Differ { printer: Printer::new(submitted, false), inserted: 0, wrapped: 0, difference: None };
    d.body(&submitted.body, &returned.body);
    let counts = format!("// inserted deletes: {}, wrapped results: {}\n", d.inserted, d.wrapped);
    Diff { listing: d.printer.out + &counts, difference: d.difference }
}

fn table_that_differs(a: &Image, b: &Image) -> Option<String> {
    row_that_differs("names", &a.names, &b.names)
        .or_else(|| row_that_differs("types", &a.types, &b.types))
        .or_else(|| row_that_differs("structs", &a.structs, &b.structs))
        .or_else(|| row_that_differs("globals", &a.globals, &b.globals))
        .or_else(|| (a.entry != b.entry).then(|| "the entry".into()))
}

fn row_that_differs<T: PartialEq>(word: &str, a: &Table<T>, b: &Table<T>) -> Option<String> {
    let same = a.rows.iter().zip(&b.rows).take_while(|(old, new)| old == new).count();
    (a != b).then(|| format!("row {same} of the {word}"))
}

struct Differ<'a> {
    printer: Printer<'a>,
    inserted: usize,
    wrapped: usize,
    difference: Option<String>,
}

impl Differ<'_> {
    fn body(&mut self, a: &Block, b: &Block) {
        if a.span == b.span {
            self.printer.open_body(SAME, a);
        } else {
            self.printer.open_body(ONLY_SUBMITTED, a);
            self.printer.open_body(ONLY_RETURNED, b);
            self.differs(format!("the body's span was {} and is {}", a.span, b.span));
        }
        self.statements(1, &a.statements, &b.statements);
        self.printer.line(SAME, 0, "}");
    }

    // Only the first is kept.
    fn differs(&mut self, reason: String) {
        self.difference.get_or_insert(reason);
    }

    // A statement of b is the next of a, inserted, a later one of a, or strange.
    fn statements(&mut self, depth: usize, mut a: &[Statement], b: &[Statement]) {
        for s in b {
            let is_next = a.first().is_some_and(|old| heads_match(old, s));
            if !is_next && is_insertion(s) {
                self.inserted += 1;
                self.printer.statement(INSERTED, depth, s);
                continue;
            }
            let Some(at) = a.iter().position(|old| heads_match(old, s)) else {
                self.strange(depth, s);
                continue;
            };
            self.missing(depth, &a[..at]);
            self.pair(depth, &a[at], s);
            a = &a[at + 1..];
        }
        self.missing(depth, a);
    }

    fn missing(&mut self, depth: usize, statements: &[Statement]) {
        for s in statements {
            self.differs(format!("the statement at byte {} of the submitted image is gone", s.place.0));
            self.printer.statement(ONLY_SUBMITTED, depth, s);
        }
    }

    fn strange(&mut self, depth: usize, s: &Statement) {
        self.differs(format!("the statement at byte {} of the returned image is neither a submitted one nor an inserted delete", s.place.0));
        self.printer.statement(ONLY_RETURNED, depth, s);
    }

    // Two statements that match but for what is in their blocks.
    fn pair(&mut self, depth: usize, a: &Statement, b: &Statement) {
        if !has_blocks(a) {
            let wrapped = is_wrapped(a, b);
            self.wrapped += usize::from(wrapped);
            return self.printer.statement(if wrapped { WRAPPED } else { SAME }, depth, b);
        }
        for (i, (old, new)) in blocks(a).into_iter().zip(blocks(b)).enumerate() {
            self.printer.head(SAME, depth, a, i);
            self.statements(depth + 1, &old.statements, &new.statements);
        }
        self.printer.line(SAME, depth, "}");
    }
}

// Whether b is a, with insertions in its blocks perhaps or with a delete round it.
fn heads_match(a: &Statement, b: &Statement) -> bool {
    let spans = |s: &Statement| blocks(s).iter().map(|block| block.span).collect::<Vec<_>>();
    match (&a.kind, &b.kind) {
        _ if a.span != b.span => false,
        (Kind::Block(_), Kind::Block(_)) => true,
        (Kind::IfElse(old, ..), Kind::IfElse(new, ..)) | (Kind::While(old, _), Kind::While(new, _)) => old == new && spans(a) == spans(b),
        _ => a == b || is_wrapped(a, b),
    }
}

/// An inserted delete: one span for the statement, its Delete and its Ident.
fn is_insertion(s: &Statement) -> bool {
    let Kind::Expr(delete) = &s.kind else { return false };
    let Node::Delete(child) = &delete.node else { return false };
    matches!(child.node, Node::Ident(_)) && delete.span == s.span && child.span == s.span
}

/// A call as a statement with a delete put round it, which has the statement's span.
fn is_wrapped(a: &Statement, b: &Statement) -> bool {
    let (Kind::Expr(call), Kind::Expr(delete)) = (&a.kind, &b.kind) else { return false };
    let Node::Delete(child) = &delete.node else { return false };
    let is_call = matches!(looked_through(call).node, Node::Call(..));
    is_call && **child == *call && delete.span == a.span && b.span == a.span
}
