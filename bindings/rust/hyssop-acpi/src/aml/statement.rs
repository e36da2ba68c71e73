//! Statements (ACPI 6.5, 20.2.5.3).

use crate::object::emit;
use crate::{Aml, AmlSink, Op};

/// Statements after a predicate.
pub struct If<'a> {
    predicate: &'a dyn Aml,
    if_children: Vec<&'a dyn Aml>,
}

impl<'a> If<'a> {
    pub fn new(predicate: &'a dyn Aml, if_children: Vec<&'a dyn Aml>) -> Self {
        If {
            predicate,
            if_children,
        }
    }
}

impl Aml for If<'_> {
    fn to_aml_bytes(&self, sink: &mut dyn AmlSink) {
        emit(sink, |writer| {
            writer.if_true(|body| {
                body.add(self.predicate).add_all(&self.if_children);
            });
        });
    }
}

/// The statements for the other case, after those of an `If`.
pub struct Else<'a> {
    body: Vec<&'a dyn Aml>,
}

impl<'a> Else<'a> {
    pub fn new(body: Vec<&'a dyn Aml>) -> Self {
        Else { body }
    }
}

impl Aml for Else<'_> {
    fn to_aml_bytes(&self, sink: &mut dyn AmlSink) {
        emit(sink, |writer| {
            writer.otherwise(|body| {
                body.add_all(&self.body);
            });
        });
    }
}

/// A loop.
pub struct While<'a> {
    predicate: &'a dyn Aml,
    while_children: Vec<&'a dyn Aml>,
}

impl<'a> While<'a> {
    pub fn new(predicate: &'a dyn Aml, while_children: Vec<&'a dyn Aml>) -> Self {
        While {
            predicate,
            while_children,
        }
    }
}

impl Aml for While<'_> {
    fn to_aml_bytes(&self, sink: &mut dyn AmlSink) {
        emit(sink, |writer| {
            writer.while_true(|body| {
                body.add(self.predicate).add_all(&self.while_children);
            });
        });
    }
}

/// Returns a value.
pub struct Return<'a> {
    value: &'a dyn Aml,
}

impl<'a> Return<'a> {
    pub fn new(a: &'a dyn Aml) -> Self {
        Return { value: a }
    }
}

impl Aml for Return<'_> {
    fn to_aml_bytes(&self, sink: &mut dyn AmlSink) {
        emit(sink, |writer| {
            writer.operator(Op::Return).add(self.value);
        });
    }
}
