//! Stand-in for the macro `sm!` of the crate sm, with the names that sm 0.9 makes: a module by the machine's name, a unit struct for
//! each state and event, `Machine<S, E>`, and an enum `Variant` with a case `{State}By{Event}` for each pair of a target state and an
//! event, and a case `Initial{State}` for each initial state. A transition that is not listed has no impl, so the given text compiles
//! only if it uses listed ones. Beside what sm makes there is `FROM`: where an event leads from several states to one, the state that the last such
//! step left. The stand-in of the packet's checks reads it, since the given text hands over no state.
extern crate proc_macro;
use proc_macro::{TokenStream, TokenTree};

#[proc_macro]
pub fn sm(input: TokenStream) -> TokenStream {
    let mut it = input.into_iter();
    let name = match it.next() {
        Some(TokenTree::Ident(i)) => i.to_string(),
        t => panic!("sm!: name expected, got {t:?}"),
    };
    let body = match it.next() {
        Some(TokenTree::Group(g)) => g.stream(),
        t => panic!("sm!: body expected, got {t:?}"),
    };
    let mut initial: Vec<String> = vec![];
    // (event, from, to)
    let mut trans: Vec<(String, String, String)> = vec![];
    let mut b = body.into_iter();
    while let Some(t) = b.next() {
        let ev = match t {
            TokenTree::Ident(i) => i.to_string(),
            t => panic!("sm!: event expected, got {t}"),
        };
        let g = match b.next() {
            Some(TokenTree::Group(g)) => g.stream(),
            t => panic!("sm!: event body expected, got {t:?}"),
        };
        let ids: Vec<String> = g
            .into_iter()
            .filter_map(|t| match t {
                TokenTree::Ident(i) => Some(i.to_string()),
                TokenTree::Punct(_) => None,
                t => panic!("sm!: unexpected {t}"),
            })
            .collect();
        if ev == "InitialStates" {
            initial = ids;
        } else {
            assert!(ids.len() % 2 == 0, "sm!: pairs expected in {ev}");
            for p in ids.chunks(2) {
                trans.push((ev.clone(), p[0].clone(), p[1].clone()));
            }
        }
    }
    let mut states: Vec<String> = initial.clone();
    let mut events: Vec<String> = vec![];
    let mut variants: Vec<(String, String, String)> =
        initial.iter().map(|s| (format!("Initial{s}"), s.clone(), "NoneEvent".to_string())).collect();
    for (e, f, t) in &trans {
        for s in [f, t] {
            if !states.contains(s) {
                states.push(s.clone());
            }
        }
        if !events.contains(e) {
            events.push(e.clone());
        }
        let v = (format!("{t}By{e}"), t.clone(), e.clone());
        if !variants.contains(&v) {
            variants.push(v);
        }
    }
    let mut o = String::new();
    o += &format!("#[allow(non_snake_case, non_camel_case_types, dead_code)]\npub mod {name} {{\n");
    let d = "#[derive(Clone, Copy, Debug, PartialEq, Eq)] pub struct";
    o += &format!("{d} NoneEvent;\n");
    for s in states.iter().chain(events.iter()) {
        o += &format!("{d} {s};\n");
    }
    o += "thread_local! { pub static FROM: std::cell::Cell<&'static str> = const { std::cell::Cell::new(\"\") }; }\n";
    o += "pub trait InitialState {}\n";
    for s in &initial {
        o += &format!("impl InitialState for {s} {{}}\n");
    }
    o += "#[derive(Clone, Copy, Debug, PartialEq, Eq)] pub struct Machine<S, E>(S, Option<E>);\n";
    o += "impl<S: InitialState> Machine<S, NoneEvent> { pub fn new(s: S) -> Self { Machine(s, None) } }\n";
    o += "pub trait Transition<Ev> { type Out; fn go(self, ev: Ev) -> Self::Out; }\n";
    for (e, f, t) in &trans {
        let several = trans.iter().filter(|(event, _, to)| event == e && to == t).count() > 1;
        let from = if several { format!("FROM.with(|c| c.set(\"{f}\"));") } else { String::new() };
        o += &format!(
            "impl<E> Transition<{e}> for Machine<{f}, E> {{ type Out = Machine<{t}, {e}>; \
             #[inline] fn go(self, ev: {e}) -> Self::Out {{ {from} Machine({t}, Some(ev)) }} }}\n"
        );
    }
    o += "impl<S, E> Machine<S, E> {\n\
          #[inline] pub fn transition<Ev>(self, ev: Ev) -> <Self as Transition<Ev>>::Out where Self: Transition<Ev> { self.go(ev) }\n\
          #[inline] pub fn as_enum(self) -> Variant where Variant: From<Self> { Variant::from(self) }\n}\n";
    o += "#[derive(Clone, Debug, PartialEq, Eq)] pub enum Variant {\n";
    for (v, s, e) in &variants {
        o += &format!("{v}(Machine<{s}, {e}>),\n");
    }
    o += "}\n";
    for (v, s, e) in &variants {
        o += &format!(
            "impl From<Machine<{s}, {e}>> for Variant {{ #[inline] fn from(m: Machine<{s}, {e}>) -> Self {{ Variant::{v}(m) }} }}\n"
        );
    }
    o += "}\n";
    o.parse().unwrap()
}
