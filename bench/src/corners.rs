//! K1 to K12 of document 01 and the rows of document 02 (c) and (d) with the answers of crates/rules/proofs/Rows.antt, its example of 81 bytes, and its other corners.
use crate::answer::{Error, Left, State};
use crate::build::*;
use crate::image::*;

/// A body, the statements given back, and what is reported.
pub struct Row {
    pub label: &'static str,
    pub image: Image,
    pub returned: Vec<Stmt>,
    pub errors: Vec<Error>,
    pub lefts: Vec<Left>,
    /// the parameters' states after the body, last parameter first
    pub states: Vec<State>,
}

fn row(label: &'static str, image: Image, returned: Vec<Stmt>, errors: Vec<Error>, lefts: Vec<Left>, states: Vec<State>) -> Row {
    Row { label, image, returned, errors, lefts, states }
}

// A body that comes back as it is.
fn as_is(label: &'static str, params: &[Name], statements: Vec<Stmt>, errors: Vec<Error>, lefts: Vec<Left>, states: Vec<State>) -> Row {
    row(label, body(params, statements.clone()), statements, errors, lefts, states)
}

fn error(kind: u32, place: SpanNo, hint: u32, others: &[SpanNo]) -> Error {
    Error { kind, place, hint, others: others.to_vec() }
}

pub fn rows() -> Vec<Row> {
    let v = |span| ident(span, V);
    let w = |span| ident(span, W);
    let alive = || vec![(0, vec![])];
    let let_v = |span| set(span, V, T, literal());
    let let_w = |span| set(span, W, T, literal());
    let let_g = |span| set(span, G, T, literal());
    let const_v = |span| Stmt::Variable { constant: true, span, name: V, ty: T, value: literal() };
    vec![
        as_is("K1", &[V], vec![back(20)], vec![], vec![(20, V, 0)], alive()),
        as_is("K2", &[V], vec![], vec![], vec![], alive()),
        row(
            "K3",
            body(&[], vec![let_v(21), let_w(22), give(23, v(24))]),
            vec![let_v(21), let_w(22), deletion(0, W), give(23, v(24))],
            vec![],
            vec![],
            vec![],
        ),
        as_is("K3: every frame", &[V], vec![let_v(21), give(23, v(24))], vec![], vec![], alive()),
        row(
            "K4",
            body(&[], vec![let_v(21), let_v(22)]),
            vec![let_v(21), let_v(22), deletion(10, V), deletion(10, V)],
            vec![],
            vec![],
            vec![],
        ),
        row(
            "K4: revived, both",
            body(&[], vec![let_v(21), moving(22, v(23)), let_v(24)]),
            vec![let_v(21), moving(22, v(23)), let_v(24), deletion(10, V), deletion(10, V)],
            vec![],
            vec![],
            vec![],
        ),
        as_is("K4: one state", &[], vec![let_v(21), let_v(22), moving(23, v(24))], vec![], vec![], vec![]),
        as_is(
            "K5",
            &[V],
            vec![when(
                21,
                block(22, vec![when(23, block(24, vec![moving(25, v(26))]), None)]),
                Some(block(27, vec![when(28, block(29, vec![moving(30, v(31))]), None)])),
            )],
            vec![],
            vec![],
            vec![(2, vec![26, 31])],
        ),
        as_is(
            "K5: equal states",
            &[V],
            vec![when(21, block(22, vec![moving(25, v(26))]), Some(block(27, vec![moving(25, v(26))])))],
            vec![],
            vec![],
            vec![(2, vec![26])],
        ),
        as_is(
            "K6",
            &[V],
            vec![when(21, block(22, vec![moving(25, v(26)), back(27)]), Some(block(28, vec![back(29)])))],
            vec![],
            vec![(29, V, 0)],
            alive(),
        ),
        as_is("K7", &[V], vec![repeat(21, block(22, vec![moving(25, v(26))]))], vec![], vec![], vec![(5, vec![26])]),
        as_is("K7: returning", &[V], vec![repeat(21, block(22, vec![moving(25, v(26)), back(27)]))], vec![], vec![], vec![(5, vec![26])]),
        row("K8", body(&[V], vec![assign(21, v(22), v(23))]), vec![deletion(21, V), assign(21, v(22), v(23))], vec![], vec![], alive()),
        as_is("K9", &[V], vec![moving(21, unary(22, PLAIN, 3, v(23)))], vec![error(7, 22, 1, &[])], vec![], alive()),
        as_is("K10", &[G], vec![moving(21, ident(22, G))], vec![error(8, 22, 0, &[99])], vec![], alive()),
        as_is("K11", &[V], vec![moving(21, v(22)), moving(23, v(24))], vec![error(2, 24, 0, &[22])], vec![], vec![(2, vec![24])]),
        as_is("K12", &[V], vec![set(21, W, PLAIN, delete(22, v(23)))], vec![], vec![], alive()),
        row(
            "(c): outside any loop",
            body(&[W], vec![let_v(21), Stmt::Break(22), Stmt::Continue(23)]),
            vec![let_v(21), Stmt::Break(22), Stmt::Continue(23), deletion(10, V)],
            vec![],
            vec![],
            alive(),
        ),
        row(
            "(c): in a branch in a block",
            body(
                &[W],
                vec![repeat(
                    20,
                    block(
                        21,
                        vec![
                            let_v(22),
                            Stmt::Block(block(23, vec![let_g(24), when(25, block(26, vec![Stmt::Break(27)]), None)])),
                            Stmt::Continue(28),
                        ],
                    ),
                )],
            ),
            vec![repeat(
                20,
                block(
                    21,
                    vec![
                        let_v(22),
                        Stmt::Block(block(23, vec![let_g(24), when(25, block(26, vec![Stmt::Break(27)]), None), deletion(23, G)])),
                        Stmt::Continue(28),
                        deletion(21, V),
                    ],
                ),
            )],
            vec![],
            vec![(27, G, 24), (27, V, 22), (28, V, 22)],
            alive(),
        ),
        row(
            "(c): the nearest loop",
            body(
                &[],
                vec![repeat(20, block(21, vec![let_v(22), repeat(23, block(24, vec![let_w(25), Stmt::Continue(26)])), Stmt::Break(27)]))],
            ),
            vec![repeat(
                20,
                block(
                    21,
                    vec![
                        let_v(22),
                        repeat(23, block(24, vec![let_w(25), Stmt::Continue(26), deletion(24, W)])),
                        Stmt::Break(27),
                        deletion(21, V),
                    ],
                ),
            )],
            vec![],
            vec![(26, W, 25), (27, V, 22)],
            vec![],
        ),
        row(
            "(c): each branch",
            body(
                &[],
                vec![repeat(
                    20,
                    block(
                        21,
                        vec![let_v(22), when(23, block(24, vec![Stmt::Break(25)]), Some(block(26, vec![let_w(27), Stmt::Continue(28)])))],
                    ),
                )],
            ),
            vec![repeat(
                20,
                block(
                    21,
                    vec![
                        let_v(22),
                        when(23, block(24, vec![Stmt::Break(25)]), Some(block(26, vec![let_w(27), Stmt::Continue(28), deletion(26, W)]))),
                        deletion(21, V),
                    ],
                ),
            )],
            vec![],
            vec![(25, V, 22), (28, W, 27), (28, V, 22)],
            vec![],
        ),
        row(
            "(c): behind a closed loop",
            body(&[], vec![let_w(19), repeat(20, block(21, vec![let_v(22), moving(23, v(24)), Stmt::Break(25)])), Stmt::Break(26)]),
            vec![let_w(19), repeat(20, block(21, vec![let_v(22), moving(23, v(24)), Stmt::Break(25)])), Stmt::Break(26), deletion(10, W)],
            vec![],
            vec![],
            vec![],
        ),
        row(
            "(c): K4 in a loop",
            body(&[], vec![repeat(20, block(21, vec![let_v(22), moving(23, v(24)), let_v(25), Stmt::Break(26)]))]),
            vec![repeat(20, block(21, vec![let_v(22), moving(23, v(24)), let_v(25), Stmt::Break(26), deletion(21, V), deletion(21, V)]))],
            vec![],
            vec![(26, V, 25), (26, V, 22)],
            vec![],
        ),
        row(
            "(c): where no run comes",
            body(&[], vec![repeat(20, block(21, vec![let_v(22), Stmt::Continue(23), back(24), Stmt::Break(25)]))]),
            vec![repeat(20, block(21, vec![let_v(22), Stmt::Continue(23), back(24), Stmt::Break(25), deletion(21, V)]))],
            vec![],
            vec![(23, V, 22), (24, V, 22), (25, V, 22)],
            vec![],
        ),
        as_is(
            "(d): two of one name and a parameter",
            &[V],
            vec![let_v(21), let_v(22), back(23)],
            vec![],
            vec![(23, V, 22), (23, V, 21), (23, V, 0)],
            alive(),
        ),
        as_is(
            "(d): through branches, joins and assignments",
            &[],
            vec![
                let_w(21),
                when(22, block(23, vec![moving(24, w(25)), assign(26, w(27), literal())]), Some(block(28, vec![]))),
                repeat(29, block(30, vec![moving(31, w(32)), assign(33, w(34), literal())])),
                back(35),
            ],
            vec![error(2, 27, 0, &[25]), error(2, 34, 0, &[32])],
            vec![(35, W, 21)],
            vec![],
        ),
        row(
            "(d): nested blocks and this",
            body(
                &[0],
                vec![
                    let_v(21),
                    Stmt::Block(block(22, vec![let_v(23), back(24)])),
                    Stmt::Block(block(25, vec![let_v(26)])),
                    let_w(27),
                    back(28),
                ],
            ),
            vec![
                let_v(21),
                Stmt::Block(block(22, vec![let_v(23), back(24)])),
                Stmt::Block(block(25, vec![let_v(26), deletion(25, V)])),
                let_w(27),
                back(28),
            ],
            vec![],
            vec![(24, V, 23), (24, V, 21), (24, 0, 0), (28, W, 27), (28, V, 21), (28, 0, 0)],
            alive(),
        ),
        as_is(
            "(d): moved and registered again",
            &[],
            vec![let_v(21), moving(22, v(23)), let_v(24), back(25)],
            vec![],
            vec![(25, V, 24), (25, V, 21)],
            vec![],
        ),
        row(
            "(d): a const in a loop",
            body(&[], vec![repeat(20, block(21, vec![const_v(22), Stmt::Continue(23)]))]),
            vec![repeat(20, block(21, vec![const_v(22), Stmt::Continue(23), deletion(21, V)]))],
            vec![],
            vec![(23, V, 22)],
            vec![],
        ),
    ]
}

/// Parameter `x: T`, `delete x;`, `x;`.
pub fn example() -> Image {
    let x = |span| node(span, 1, Node::Ident(1));
    Image {
        names: ["this", "x", "T"].iter().map(|n| n.as_bytes().to_vec()).collect(),
        types: vec![Ty::Plain, Ty::Named(2)],
        structs: vec![Struct { name: 2, destructor: true, shape: 0, methods: vec![] }],
        globals: vec![],
        entry: Entry { receiver: 0, this: 0, params: vec![(1, 1)] },
        body: block(10, vec![run(11, delete(12, x(13))), run(14, x(15))]),
    }
}

/// The other corners of document 01, each by a small body.
pub fn others() -> Vec<(String, Image)> {
    let mut list: Vec<(String, Image)> = vec![];
    let mut add = |label: &str, image: Image| list.push((label.to_string(), image));
    let v = |span| ident(span, V);
    let tmp = |span| ident(span, TMP);
    let taken = |span, e| run(span, call(span, PLAIN, field(span + 1, e, TAKE), vec![]));
    let made = |span, e: Expr| run(span, e);

    // expressions looked through, and types of the outer node
    add("delete under unaries", body(&[V], vec![run(20, under(delete(21, under(v(22))))), made(23, v(24))]));
    add("delete behind a cast", body(&[V], vec![run(20, node(21, T, Node::Casting(Box::new(delete(22, v(23))))))]));
    add("move under a unary", body(&[V], vec![moving(20, under(v(21))), made(22, v(23))]));
    add("return under a unary", body(&[V, W], vec![give(20, under(v(21)))]));
    add("assignment under a unary", body(&[V], vec![assign(20, under(v(21)), literal())]));
    let unused = |ty, outer: Option<TyNo>| {
        let e = call(21, ty, ident(22, V), vec![]);
        run(20, outer.map_or(e.clone(), |t| unary(23, t, 0, e)))
    };
    add("unused result", body(&[], vec![unused(T, None)]));
    add("unused result of no destructor", body(&[], vec![unused(PLAIN, None)]));
    add("unused result, outer type plain", body(&[], vec![unused(T, Some(PLAIN))]));
    add("unused result, inner type plain", body(&[], vec![unused(PLAIN, Some(T))]));
    add("unused result, no call", body(&[], vec![run(20, node(21, T, Node::Literal))]));
    add("unused result behind a cast", body(&[], vec![run(20, node(21, T, Node::Casting(Box::new(call(22, T, ident(23, V), vec![])))))]));
    add("unused result with span 0", body(&[], vec![run(0, call(0, T, ident(0, V), vec![]))]));

    // ends of blocks
    add("after a final break", body(&[], vec![repeat(20, block(21, vec![set(22, V, T, literal()), Stmt::Break(23)]))]));
    add("after a final continue", body(&[], vec![repeat(20, block(21, vec![set(22, V, T, literal()), Stmt::Continue(23)]))]));
    add("after a final while that returns", body(&[], vec![set(20, V, T, literal()), repeat(21, block(22, vec![back(23)]))]));
    add("after a final block that returns", body(&[], vec![set(20, V, T, literal()), Stmt::Block(block(21, vec![back(22)]))]));
    add(
        "after branches that return",
        body(&[], vec![set(20, V, T, literal()), when(21, block(22, vec![back(23)]), Some(block(24, vec![back(25)])))]),
    );
    add("after one branch that returns", body(&[], vec![set(20, V, T, literal()), when(21, block(22, vec![back(23)]), None)]));
    add("after a return", body(&[V], vec![back(20), set(21, W, T, literal()), back(22), made(23, v(24))]));
    add("only then returns", body(&[V], vec![when(20, block(21, vec![moving(22, v(23)), back(24)]), None), made(25, v(26))]));
    add(
        "only else returns",
        body(&[V], vec![when(20, block(21, vec![moving(22, v(23))]), Some(block(24, vec![back(25)]))), made(26, v(27))]),
    );
    add(
        "an inner frame's local",
        body(&[V], vec![Stmt::Block(block(20, vec![set(21, V, T, literal()), moving(22, v(23))])), made(24, v(25))]),
    );
    add(
        "drops at a value's return",
        body(&[V], vec![set(20, W, T, literal()), Stmt::Block(block(21, vec![set(22, V, T, literal()), give(23, literal())]))]),
    );
    add("moved by the returned value", body(&[V, W], vec![give(20, std_move(21, vec![v(22)]))]));

    // assignments
    add("assignment to a moved name", body(&[V], vec![moving(20, v(21)), assign(22, v(23), literal()), made(24, v(25))]));
    add("assignment to a field", body(&[V], vec![assign(20, field(21, v(22), W), literal())]));
    add("assignment of another", body(&[V, W], vec![assign(20, ident(21, W), v(22))]));
    add("assignment moves its own", body(&[V], vec![assign(20, v(21), std_move(22, vec![v(23)]))]));
    let mut two = body(&[V], vec![set(20, V, PLAIN, literal()), assign(21, v(22), literal())]);
    add("assignment tests the newest local", two.clone());
    two.body.statements.insert(0, set(19, V, T, literal()));
    add("one frame, two types", two);

    // names
    let method = |receiver, this_ty, statements| {
        let mut i = body(&[], statements);
        (i.entry.receiver, i.entry.this) = (receiver, this_ty);
        i
    };
    for (receiver, ty) in [(2, POINTER), (3, POINTER), (4, T)] {
        add(&format!("this, receiver {receiver}"), method(receiver, ty, vec![back(20)]));
        add(
            &format!("delete this, receiver {receiver}"),
            method(receiver, ty, vec![run(20, delete(21, this(22))), made(23, this(24)), made(25, ident(26, THIS))]),
        );
        add(
            &format!("assign to this, receiver {receiver}"),
            method(receiver, ty, vec![moving(20, this(21)), assign(22, this(23), literal()), made(24, this(25))]),
        );
        add(&format!("assign to Ident this, receiver {receiver}"), method(receiver, ty, vec![assign(22, ident(23, THIS), literal())]));
        add(&format!("this.take(), receiver {receiver}"), method(receiver, ty, vec![taken(20, this(22)), made(23, this(24))]));
        add(&format!("Ident this.take(), receiver {receiver}"), method(receiver, ty, vec![taken(20, ident(22, THIS)), made(23, this(24))]));
        add(&format!("return this, receiver {receiver}"), method(receiver, ty, vec![give(20, this(21))]));
    }
    add("static method", method(1, 0, vec![made(20, this(21)), moving(22, this(23))]));
    let mut global = method(4, T, vec![moving(20, ident(21, THIS)), moving(22, this(23))]);
    global.globals = vec![(THIS, 98)];
    add("a global named this", global);
    add("move of no local", body(&[], vec![moving(20, v(21))]));
    add("move of a temporary", body(&[TMP], vec![moving(20, tmp(21))]));
    add("move of a temporary that is no local", body(&[], vec![moving(20, tmp(21))]));
    add("move of this without one", body(&[], vec![moving(20, this(21))]));
    add("move of a call", body(&[V], vec![moving(20, call(21, T, v(22), vec![]))]));
    add("move of an expression under a unary", body(&[V], vec![moving(20, unary(21, T, 0, unary(22, T, 3, v(23))))]));
    add("move of nothing", body(&[V], vec![run(20, std_move(21, vec![]))]));
    add("move of two", body(&[V, W], vec![run(20, std_move(21, vec![v(22), ident(23, W)])), made(24, v(25)), made(26, ident(27, W))]));
    add("move of one twice", body(&[V], vec![run(20, std_move(21, vec![v(22), std_move(23, vec![v(24)])]))]));
    add("another intrinsic", body(&[V], vec![run(20, node(21, PLAIN, Node::Intrinsic(TAKE, vec![v(22)]))), made(23, v(24))]));

    // the smallest on which the Rust panics if the file can't be read
    let smallest = |names: &[&str], statements| Image {
        names: names.iter().map(|n| n.as_bytes().to_vec()).collect(),
        types: vec![Ty::Plain],
        body: block(0, statements),
        ..Image::default()
    };
    let mut global = smallest(&["this", "std::move"], vec![run(0, node(0, 0, Node::Intrinsic(1, vec![node(0, 0, Node::Ident(0))])))]);
    global.globals = vec![(0, 0)];
    add("smallest move of a global", global);
    let mut unused = smallest(&["this"], vec![run(0, call(0, 1, node(0, 0, Node::Literal), vec![]))]);
    unused.types.push(Ty::Named(0));
    unused.structs = vec![Struct { name: 0, destructor: true, shape: 0, methods: vec![] }];
    add("smallest unused result", unused);

    // consuming methods
    add("consuming", body(&[V], vec![taken(20, v(22)), made(23, v(24))]));
    add(
        "consuming under unaries",
        body(&[V], vec![run(20, under(call(21, PLAIN, under(field(22, unary(23, T, 0, v(24)), TAKE)), vec![]))), made(25, v(26))]),
    );
    let of_type = |ty| node(22, ty, Node::Ident(V));
    add("consuming behind a pointer", body(&[V], vec![taken(20, of_type(POINTER)), made(23, v(24))]));
    add("consuming a plain target", body(&[V], vec![taken(20, of_type(PLAIN)), made(23, v(24))]));
    add("the target's outer type", body(&[V], vec![taken(20, unary(22, PLAIN, 0, v(23))), made(24, v(25))]));
    add("the target's inner type", body(&[V], vec![taken(20, unary(22, T, 0, of_type(PLAIN))), made(24, v(25))]));
    add("consuming no local", body(&[], vec![taken(20, v(22)), made(23, v(24))]));
    add(
        "consuming with the receiver as argument",
        body(&[V], vec![run(20, call(21, PLAIN, field(22, v(23), TAKE), vec![v(24)])), made(25, v(26))]),
    );
    add("consuming twice", body(&[V], vec![taken(20, v(22)), taken(30, v(32)), made(33, v(34))]));

    // temporaries
    for (label, e) in [
        ("call", call(21, PLAIN, literal(), vec![tmp(22)])),
        ("object", node(21, PLAIN, Node::Obj(vec![tmp(22)]))),
        ("sized list", node(21, PLAIN, Node::Sized(Box::new(tmp(22))))),
        ("list", node(21, PLAIN, Node::List(vec![tmp(22)]))),
        ("intrinsic", node(21, PLAIN, Node::Intrinsic(TAKE, vec![tmp(22)]))),
        ("callee", call(21, PLAIN, tmp(22), vec![])),
        ("call under a unary", call(21, PLAIN, literal(), vec![under(tmp(22))])),
        ("call twice", call(21, PLAIN, literal(), vec![tmp(22), tmp(23)])),
        ("call behind a cast", call(21, PLAIN, literal(), vec![node(22, T, Node::Casting(Box::new(tmp(23))))])),
    ] {
        add(&format!("temporary to a {label}"), body(&[TMP], vec![run(20, e), made(24, tmp(25))]));
    }
    add(
        "temporary deleted, then handed over",
        body(&[TMP], vec![run(20, delete(21, tmp(22))), run(23, call(24, PLAIN, literal(), vec![tmp(25)])), made(26, tmp(27))]),
    );
    add("temporary to a Let", body(&[TMP], vec![set(20, V, T, tmp(21)), made(22, tmp(23))]));
    add(
        "temporary to a Const",
        body(&[TMP], vec![Stmt::Variable { constant: true, span: 20, name: V, ty: T, value: tmp(21) }, made(22, tmp(23))]),
    );
    add("temporary to a Let of another type", body(&[TMP], vec![set(20, V, PLAIN, tmp(21)), made(22, tmp(23))]));
    add("temporary to a Let of its name", body(&[TMP], vec![set(20, TMP, T, tmp(21)), made(22, tmp(23))]));
    add("temporary to an Assign", body(&[V, TMP], vec![assign(20, v(21), tmp(22)), made(23, tmp(24))]));
    add(
        "temporary moved, then taken over",
        body(&[V, TMP], vec![run(19, call(18, PLAIN, literal(), vec![tmp(17)])), assign(20, v(21), tmp(22)), made(23, tmp(24))]),
    );
    add("temporary to itself", body(&[TMP], vec![assign(20, tmp(21), tmp(22)), made(23, tmp(24))]));
    add("temporary to no local", body(&[TMP], vec![assign(20, v(21), tmp(22)), made(23, tmp(24))]));
    add("temporary to this", {
        let mut i = method(4, T, vec![assign(20, this(21), tmp(22)), made(23, tmp(24))]);
        i.entry.params = vec![(TMP, T)];
        i
    });
    add("temporary to Ident this", {
        let mut i = method(4, T, vec![assign(20, ident(21, THIS), tmp(22)), made(23, tmp(24))]);
        i.entry.params = vec![(TMP, T)];
        i
    });

    // generic types
    for (label, plain_name, destructor, shape, of_struct) in [
        ("plain name with a destructor", true, true, 0, 0),
        ("plain name without, shape with", true, false, 5, 5),
        ("shape", false, true, 5, 5),
        ("shape 0", false, true, 0, 0),
        ("another shape", false, true, 5, 6),
    ] {
        let mut i = body(&[], vec![Stmt::Variable { constant: false, span: 20, name: V, ty: 3, value: literal() }]);
        i.types.push(Ty::Generic(W, shape));
        i.structs = vec![Struct { name: 3, destructor: true, shape: of_struct, methods: vec![] }];
        if plain_name {
            i.structs.push(Struct { name: W, destructor, shape: 0, methods: vec![] });
        }
        add(&format!("generic: {label}"), i.clone());
        i.types.push(Ty::Array(3));
        i.body.statements = vec![Stmt::Variable { constant: false, span: 20, name: V, ty: 4, value: literal() }];
        add(&format!("array of generic: {label}"), i);
    }
    let mut array = tables();
    array.types.extend([Ty::Array(1), Ty::Array(3), Ty::Array(2), Ty::Pointer(3)]);
    array.body.statements = (3..7).map(|ty| set(20 + ty as SpanNo, V, ty, literal())).collect();
    add("arrays and pointers", array);

    // joins
    let kill = |kind: usize, at: SpanNo| match kind {
        0 => vec![],
        1 => vec![run(at, delete(at, v(at + 1)))],
        2 => vec![moving(at, v(at + 1))],
        3 => vec![taken(at, v(at + 2))],
        k => vec![when(
            at,
            block(at, vec![[run(at, delete(at, v(at + 1))), moving(at, v(at + 1)), taken(at, v(at + 2))][k - 4].clone()]),
            None,
        )],
    };
    for a in 0..7 {
        for b in 0..7 {
            let joined = when(20, block(21, kill(a, 30)), Some(block(22, kill(b, 40))));
            add(&format!("join {a} {b}"), body(&[V], vec![joined, made(50, v(51)), set(52, W, T, literal()), give(53, literal())]));
        }
        add(&format!("loop {a}"), body(&[V], vec![repeat(20, block(21, kill(a, 30))), made(50, v(51))]));
        for b in 1..4 {
            add(
                &format!("loop {a} after {b}"),
                body(&[V], [kill(b, 40), vec![repeat(20, block(21, kill(a, 30))), made(50, v(51))]].concat()),
            );
        }
    }
    list
}
