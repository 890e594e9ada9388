//! SHIM: reads an image into the crate's types. There is no parser here: names are the image's numbers behind a letter, and a place in a source
//! text is a row of a table. The image is taken as well formed; nothing is judged.
use crate::ast;
use crate::collections::{IndexMap, IndexSet};
use crate::executable::{ExecutableDocument, Field, Fragment, FragmentSpread, InlineFragment, Operation, Selection, SelectionSet};
use crate::parser::SourceSpan;
use crate::schema::{self, ExtendedType, Schema};
use crate::{Name, Node};
use std::cell::RefCell;

pub const NONE: u32 = u32::MAX;
const WIDTH: [usize; 9] = [2, 2, 4, 2, 3, 9, 3, 4, 3];

thread_local! {
    /// The place of each argument row of the image at hand: validation/directive.rs asks for it.
    pub static PLACES: RefCell<Vec<Node<ast::InputValueDefinition>>> = const { RefCell::new(Vec::new()) };
}

pub fn place_of(argument: &Node<ast::Argument>) -> Option<Node<ast::InputValueDefinition>> {
    let at = argument.location()?;
    PLACES.with(|p| p.borrow().get(at.row as usize).cloned())
}

struct Image<'a> {
    words: &'a [u32],
}

impl<'a> Image<'a> {
    fn count(&self, table: usize) -> usize {
        self.words[2 + 2 * table] as usize
    }
    fn row(&self, table: usize, row: usize) -> &'a [u32] {
        let w = WIDTH[table];
        let at = self.words[3 + 2 * table] as usize + row * w;
        &self.words[at..at + w]
    }
}

/// What an image holds, in the crate's own types.
pub struct Read {
    pub schema: Schema,
    pub document: ExecutableDocument,
    pub places: Vec<Node<ast::InputValueDefinition>>,
    /// Every (object or interface, field name) has one type and every argument of it one place, a union has no fields,
    /// and the operations start from at most two types, so that the document could have been written against the schema made here.
    pub whole: bool,
}

fn at(table: u32, row: usize) -> SourceSpan {
    SourceSpan::row(table, row as u32)
}

struct Reader<'a> {
    image: Image<'a>,
    types: Vec<Name>,
    refs: Vec<ast::Type>,
    values: Vec<Node<ast::Value>>,
    arguments: Vec<Node<ast::Argument>>,
    places: Vec<Node<ast::InputValueDefinition>>,
    definitions: IndexMap<(u32, u32, String), Node<ast::FieldDefinition>>,
    sets: Vec<Option<SelectionSet>>,
    whole: bool,
}

impl Reader<'_> {
    fn type_refs(&mut self) {
        for i in 0..self.image.count(1) {
            let r = self.image.row(1, i);
            let child = r[1] as usize;
            self.refs.push(match r[0] {
                0 => ast::Type::Named(self.types[child].clone()),
                1 => ast::Type::NonNullNamed(self.types[child].clone()),
                2 => ast::Type::List(Box::new(self.refs[child].clone())),
                _ => ast::Type::NonNullList(Box::new(self.refs[child].clone())),
            });
        }
    }

    // The members of lists and objects lie after them, so values are made from the last row to the first.
    fn values(&mut self) {
        let n = self.image.count(7);
        let mut next = self.image.count(6);
        let mut first = vec![0; n];
        for i in 0..n {
            let r = self.image.row(7, i);
            if r[0] >= 7 {
                assert!(r[2] as usize == next && (next > i || r[3] == 0));
                first[i] = next;
                next += r[3] as usize;
            }
        }
        let mut made: Vec<Option<Node<ast::Value>>> = vec![None; n];
        for i in (0..n).rev() {
            let r = self.image.row(7, i);
            let members = first[i]..first[i] + if r[0] >= 7 { r[3] as usize } else { 0 };
            let value = match r[0] {
                0 => ast::Value::Null,
                1 => ast::Value::Boolean(r[2] == 1),
                2 => ast::Value::Int(ast::IntValue::new_parsed(&r[2].to_string())),
                3 => ast::Value::Float(ast::FloatValue::new_parsed(&format!("{}.0", r[2]))),
                4 => ast::Value::String(format!("s{}", r[2])),
                5 => ast::Value::Enum(Name::new(&format!("e{}", r[2]))),
                6 => ast::Value::Variable(Name::new(&format!("v{}", r[2]))),
                7 => ast::Value::List(members.map(|m| made[m].clone().unwrap()).collect()),
                _ => ast::Value::Object(members.map(|m| (Name::new(&format!("n{}", self.image.row(7, m)[1])), made[m].clone().unwrap())).collect()),
            };
            made[i] = Some(Node::new_parsed(value, at(7, i)));
        }
        self.values = made.into_iter().map(Option::unwrap).collect();
    }

    fn arguments(&mut self) {
        for i in 0..self.image.count(6) {
            let r = self.image.row(6, i);
            let name = Name::new(&format!("n{}", r[0]));
            self.arguments.push(Node::new_parsed(ast::Argument { name: name.clone(), value: self.values[i].clone() }, at(6, i)));
            let ty = self.refs[r[1] as usize].clone();
            self.places.push(Node::new(ast::InputValueDefinition {
                description: None,
                name,
                default_value: (r[2] == 1).then(|| Node::new(ast::Value::Null)),
                ty: Node::new(ty),
                directives: Default::default(),
            }));
        }
    }

    fn some_arguments(&self, first: u32, count: u32) -> Vec<Node<ast::Argument>> {
        self.arguments[first as usize..(first + count) as usize].to_vec()
    }

    // All directive arguments of one row as those of one directive, `d`: the image has no directive's name.
    fn directives(&self, first: u32, count: u32) -> ast::DirectiveList {
        let mut list = ast::DirectiveList::new();
        if count > 0 {
            list.push(ast::Directive { name: Name::new("d"), arguments: self.some_arguments(first, count) });
        }
        list
    }

    // A default value of the type's own form, so that the crate's check of default values, which is out of scope, is silent.
    fn a_default(&self, ty: &ast::Type) -> ast::Value {
        match ty {
            ast::Type::Named(_) | ast::Type::List(_) => ast::Value::Null,
            ast::Type::NonNullList(_) => ast::Value::List(vec![]),
            ast::Type::NonNullNamed(name) => {
                let row = self.types.iter().position(|t| t == name).unwrap();
                match self.image.row(0, row)[1] {
                    0 => ast::Value::Boolean(true),
                    4 => ast::Value::Enum(Name::new("e0")),
                    _ => ast::Value::Object(vec![]),
                }
            }
        }
    }

    fn variables(&self, first: u32, count: u32) -> Vec<Node<ast::VariableDefinition>> {
        (first as usize..(first + count) as usize)
            .map(|i| {
                let r = self.image.row(8, i);
                let ty = self.refs[r[1] as usize].clone();
                let definition = ast::VariableDefinition {
                    name: Name::new(&format!("v{}", r[0])).with_location(at(8, i)),
                    default_value: (r[2] == 1).then(|| Node::new(self.a_default(&ty))),
                    ty: Node::new(ty),
                    directives: Default::default(),
                };
                Node::new_parsed(definition, at(8, i))
            })
            .collect()
    }

    // One definition for each (parent, field name, type), with the arguments that any selection of it gives.
    fn field_definitions(&mut self) {
        let parents = parents(&self.image);
        let mut found: IndexMap<(u32, u32, String), ast::FieldDefinition> = IndexMap::default();
        for i in 0..self.image.count(5) {
            let r = self.image.row(5, i);
            if r[0] != 0 {
                continue;
            }
            self.whole &= self.image.row(0, parents[i] as usize)[1] != 3;
            let ty = &self.refs[r[3] as usize];
            let definition = found.entry((parents[i], r[2], ty.to_string())).or_insert_with(|| ast::FieldDefinition {
                description: None,
                name: Name::new(&format!("n{}", r[2])),
                arguments: vec![],
                ty: ty.clone(),
                directives: Default::default(),
            });
            for a in r[4]..r[4] + r[5] {
                let place = &self.places[a as usize];
                match definition.arguments.iter().find(|d| d.name == place.name) {
                    None => definition.arguments.push(place.clone()),
                    Some(d) => self.whole &= d == place,
                }
            }
        }
        self.definitions = found.into_iter().map(|(k, d)| (k, Node::new(d))).collect();
    }

    fn field(&mut self, parent: u32, i: usize) -> Node<Field> {
        let w = self.image.row(5, i);
        let ty = &self.refs[w[3] as usize];
        let field = Field {
            definition: self.definitions[&(parent, w[2], ty.to_string())].clone(),
            alias: (w[1] != w[2]).then(|| Name::new(&format!("n{}", w[1]))),
            name: Name::new(&format!("n{}", w[2])),
            arguments: self.some_arguments(w[4], w[5]),
            directives: self.directives(w[7], w[8]),
            selection_set: match w[6] {
                NONE => SelectionSet::new(ty.inner_named_type().clone()),
                t => self.sets[t as usize].take().unwrap(),
            },
        };
        Node::new_parsed(field, at(5, i))
    }

    fn selection(&mut self, parent: u32, i: usize) -> Selection {
        let w = self.image.row(5, i);
        let directives = self.directives(w[7], w[8]);
        match w[0] {
            0 => Selection::Field(self.field(parent, i)),
            1 => Selection::FragmentSpread(Node::new_parsed(FragmentSpread { fragment_name: Name::new(&format!("f{}", w[6])), directives }, at(5, i))),
            _ => {
                let selection_set = self.sets[w[6] as usize].take().unwrap();
                let type_condition = Some(selection_set.ty.clone());
                Selection::InlineFragment(Node::new_parsed(InlineFragment { type_condition, directives, selection_set }, at(5, i)))
            }
        }
    }

    // A set's own sets have greater numbers, so sets are made from the last to the first.
    fn selection_sets(&mut self) {
        self.sets = (0..self.image.count(4)).map(|_| None).collect();
        for s in (0..self.sets.len()).rev() {
            let row = self.image.row(4, s);
            let mut set = SelectionSet::new(self.types[row[0] as usize].clone());
            for i in row[1]..row[1] + row[2] {
                set.selections.push(self.selection(row[0], i as usize));
            }
            self.sets[s] = Some(set);
        }
    }

    fn fields_of(&mut self, type_row: usize) -> IndexMap<Name, schema::Component<ast::FieldDefinition>> {
        let mut fields = IndexMap::default();
        for ((parent, _, _), definition) in &self.definitions {
            if *parent as usize == type_row {
                self.whole &= fields.insert(definition.name.clone(), definition.clone().into()).is_none();
            }
        }
        fields
    }

    // Every enum has all the values that occur, and one that serves as a default.
    fn enum_values(&self) -> IndexMap<Name, schema::Component<ast::EnumValueDefinition>> {
        let atoms = (0..self.image.count(7)).map(|v| self.image.row(7, v)).filter(|w| w[0] == 5).map(|w| w[2]);
        let value = |atom| Name::new(&format!("e{atom}"));
        std::iter::once(0).chain(atoms).map(|a| (value(a), ast::EnumValueDefinition { description: None, value: value(a), directives: Default::default() }.into())).collect()
    }

    // The image does not say which objects an interface or a union has: here each has them all.
    fn schema(&mut self) -> Schema {
        let of_kind = |kind| -> IndexSet<schema::ComponentName> {
            (0..self.types.len()).filter(|&i| self.image.row(0, i)[1] == kind).map(|i| self.types[i].clone().into()).collect()
        };
        let (objects, interfaces) = (of_kind(1), of_kind(2));
        let mut schema = Schema::builder().build().unwrap();
        for i in 0..self.types.len() {
            let (name, description, directives) = (self.types[i].clone(), None, schema::DirectiveList::new());
            let fields = self.fields_of(i);
            let ty: ExtendedType = match self.image.row(0, i)[1] {
                0 => schema::ScalarType { description, name, directives }.into(),
                1 => schema::ObjectType { description, name, implements_interfaces: interfaces.clone(), directives, fields }.into(),
                2 => schema::InterfaceType { description, name, implements_interfaces: Default::default(), directives, fields }.into(),
                3 => schema::UnionType { description, name, directives, members: objects.clone() }.into(),
                4 => schema::EnumType { description, name, directives, values: self.enum_values() }.into(),
                _ => schema::InputObjectType { description, name, directives, fields: Default::default() }.into(),
            };
            schema.types.insert(self.types[i].clone(), ty);
        }
        schema
    }

    // The first operation's type is that of queries, another one that of mutations.
    fn operations(&mut self, schema: &mut Schema, document: &mut ExecutableDocument) {
        let mut roots: Vec<Name> = vec![];
        for i in 0..self.image.count(2) {
            let w = self.image.row(2, i);
            let selection_set = self.sets[i].take().unwrap();
            let root = roots.iter().position(|t| *t == selection_set.ty).unwrap_or_else(|| {
                roots.push(selection_set.ty.clone());
                roots.len() - 1
            });
            let operation = Operation {
                operation_type: if root == 0 { ast::OperationType::Query } else { ast::OperationType::Mutation },
                name: Some(Name::new(&format!("o{i}"))),
                variables: self.variables(w[0], w[1]),
                directives: self.directives(w[2], w[3]),
                selection_set,
            };
            document.operations.insert(Node::new_parsed(operation, at(2, i)));
        }
        self.whole &= roots.len() <= 2;
        let definition = schema.schema_definition.make_mut();
        definition.query = roots.first().map(|n| n.clone().into());
        definition.mutation = roots.get(1).map(|n| n.clone().into());
    }

    fn fragments(&mut self, document: &mut ExecutableDocument) {
        for j in 0..self.image.count(3) {
            let w = self.image.row(3, j);
            let name = Name::new(&format!("f{j}")).with_location(at(3, j));
            let selection_set = self.sets[self.image.count(2) + j].take().unwrap();
            let fragment = Fragment { name: name.clone(), directives: self.directives(w[0], w[1]), selection_set };
            document.fragments.insert(name, Node::new_parsed(fragment, at(3, j)));
        }
    }
}

/// The type row of the parent of each selection.
fn parents(image: &Image<'_>) -> Vec<u32> {
    let sets = (0..image.count(4)).map(|s| image.row(4, s));
    sets.flat_map(|row| std::iter::repeat(row[0]).take(row[2] as usize)).collect()
}

pub fn read(words: &[u32]) -> Read {
    let image = Image { words };
    let types: Vec<Name> = (0..image.count(0)).map(|i| Name::new(&format!("t{}", image.row(0, i)[0]))).collect();
    let mut r = Reader { image, types, refs: vec![], values: vec![], arguments: vec![], places: vec![], definitions: Default::default(), sets: vec![], whole: true };
    r.type_refs();
    r.values();
    r.arguments();
    r.field_definitions();
    r.selection_sets();
    let mut schema = r.schema();
    let mut document = ExecutableDocument::new();
    r.operations(&mut schema, &mut document);
    r.fragments(&mut document);
    Read { schema, document, places: r.places, whole: r.whole }
}
