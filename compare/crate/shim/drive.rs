//! SHIM: drives the crate's checks over a document and lists what they say, as the kinds and rows of a reply.
use crate::ast;
use crate::executable::{ExecutableDocument, Field, Operation, Selection, SelectionSet};
use crate::image::{Read, NONE, PLACES};
use crate::validation::diagnostics::{entries, Entry};
use crate::validation::{fragment, selection, variable, DiagnosticList};
use crate::{Name, Node};
use std::collections::{BTreeMap, BTreeSet, HashSet};

/// Diagnostics that a kind stands for, as (kind, operation, a, b), and the crate's words for all others; and the first conflict of each operation,
/// in the order in which the crate lists them.
#[derive(Default)]
pub struct Said {
    pub kinds: BTreeSet<[u32; 4]>,
    pub others: BTreeSet<&'static str>,
    pub first: BTreeMap<u32, [u32; 4]>,
}

impl Said {
    fn take(&mut self, list: &DiagnosticList, from: &mut usize, operation: usize) {
        for Entry { kind, word, a, b } in entries(list, *from) {
            if kind == 0 {
                self.others.insert(word);
            } else {
                self.kinds.insert([kind, operation as u32, a, b]);
            }
            if kind >= 14 {
                self.first.entry(operation as u32).or_insert([kind, operation as u32, a, b]);
            }
        }
        *from = list.len();
    }
}

/// The crate's checks, each called by itself in the order of kinds, cycles of every fragment among them; the merge walk of each operation
/// begins with nothing known.
pub fn by_function(read: &Read) -> Said {
    let (schema, document) = (&read.schema, &read.document);
    let mut list = DiagnosticList::new(Default::default());
    let (mut from, mut said) = (0, Said::default());
    for f in document.fragments.values() {
        fragment::validate_fragment_cycles(&mut list, document, f);
    }
    fragment::validate_fragments_used(&mut list, document);
    said.take(&list, &mut from, 0);
    let alloc = typed_arena::Arena::new();
    for (i, operation) in document.operations.iter().enumerate() {
        variable::validate_variable_definitions(&mut list, Some(schema), &operation.variables);
        variable::validate_unused_variables(&mut list, document, operation);
        for argument in reached_arguments(document, operation) {
            let place = &read.places[argument.location().unwrap().row as usize];
            let _ = variable::validate_variable_usage(&mut list, place, &operation.variables, argument);
        }
        selection::FieldsInSetCanMerge::new(&alloc, schema, document).validate_operation(operation, &mut list);
        said.take(&list, &mut from, i);
    }
    said
}

/// The crate's own way through a document, by its operation.rs, field.rs, fragment.rs and value.rs. The operation is not told apart: it is 0.
pub fn whole(read: &Read) -> Said {
    PLACES.with(|p| *p.borrow_mut() = read.places.clone());
    let mut list = DiagnosticList::new(Default::default());
    crate::executable::validation::validate_executable_document(&mut list, &read.schema, &read.document);
    let mut said = Said::default();
    said.take(&list, &mut 0, 0);
    said
}

/// The arguments that rule 13 looks at, those of the operation, of what it reaches and of reached fragments, in row order.
fn reached_arguments<'d>(document: &'d ExecutableDocument, operation: &'d Operation) -> Vec<&'d Node<ast::Argument>> {
    let mut out: Vec<&Node<ast::Argument>> = operation.directives.iter().flat_map(|d| &d.arguments).collect();
    let mut seen = HashSet::new();
    let mut todo = vec![&operation.selection_set];
    while let Some(set) = todo.pop() {
        for s in &set.selections {
            out.extend(s.directives().iter().flat_map(|d| &d.arguments));
            match s {
                Selection::Field(f) => {
                    out.extend(&f.arguments);
                    todo.push(&f.selection_set);
                }
                Selection::InlineFragment(f) => todo.push(&f.selection_set),
                Selection::FragmentSpread(f) => {
                    if seen.insert(&f.fragment_name) {
                        let def = &document.fragments[&f.fragment_name];
                        out.extend(def.directives.iter().flat_map(|d| &d.arguments));
                        todo.push(&def.selection_set);
                    }
                }
            }
        }
    }
    out.sort_by_key(|a| a.location().unwrap().row);
    out.dedup_by_key(|a| a.location().unwrap().row);
    out
}

/// For each selection row that is a field, the least row that is one field with it to the crate: the same parent type and equal nodes.
/// Other rows have NONE.
pub fn classes(read: &Read, rows: usize) -> Vec<u32> {
    let mut found: Vec<Option<(&Name, &Node<Field>)>> = vec![None; rows];
    let operations = read.document.operations.iter().map(|o| &o.selection_set);
    let mut todo: Vec<&SelectionSet> = operations.chain(read.document.fragments.values().map(|f| &f.selection_set)).collect();
    while let Some(set) = todo.pop() {
        for s in &set.selections {
            match s {
                Selection::Field(f) => {
                    found[f.location().unwrap().row as usize] = Some((&set.ty, f));
                    todo.push(&f.selection_set);
                }
                Selection::InlineFragment(f) => todo.push(&f.selection_set),
                Selection::FragmentSpread(_) => {}
            }
        }
    }
    let least = |i: usize| found.iter().position(|f| *f == found[i]).unwrap() as u32;
    (0..rows).map(|i| if found[i].is_none() { NONE } else { least(i) }).collect()
}
