//! Operators (ACPI 6.5, 20.2.5.4), and what they take.

use super::Path;
use crate::object::emit;
use crate::{Aml, AmlSink, Op};

// An operator with a name of its own: its operands in the order of `new`, the opcodes, and the operands in the order of AML.
macro_rules! operator {
    ($(#[$meta:meta])* $name:ident($($given:ident),*) $($op:ident)+ ($($written:ident),*)) => {
        $(#[$meta])*
        pub struct $name<'a> {
            $($given: &'a dyn Aml,)*
        }

        impl<'a> $name<'a> {
            pub fn new($($given: &'a dyn Aml),*) -> Self {
                $name { $($given),* }
            }
        }

        impl Aml for $name<'_> {
            fn to_aml_bytes(&self, sink: &mut dyn AmlSink) {
                emit(sink, |writer| {
                    $(writer.operator(Op::$op);)+
                    $(writer.add(self.$written);)*
                });
            }
        }
    };
}

operator!(/** Whether two values are equal. */ Equal(left, right) LEqual (left, right));
operator!(/** Whether a value is less. */ LessThan(left, right) LLess (left, right));
operator!(/** Whether a value is greater. */ GreaterThan(left, right) LGreater (left, right));
operator!(/** Whether two values differ. */ NotEqual(left, right) LNot LEqual (left, right));
operator!(/** Whether a value isn't less. */ GreaterEqual(left, right) LNot LLess (left, right));
operator!(/** Whether a value isn't greater. */ LessEqual(left, right) LNot LGreater (left, right));
operator!(/** Stores a value in a target. */ Store(name, value) Store (value, name));
operator!(/** Notifies the operating system of an event. */ Notify(object, value) Notify (object, value));
operator!(/** The type of an object. */ ObjectType(a) ObjectType (a));
operator!(/** The size of an object. */ SizeOf(a) SizeOf (a));
operator!(/** What a reference refers to. */ DeRefOf(a) DerefOf (a));
operator!(/** A sum. */ Add(target, a, b) Add (a, b, target));
operator!(/** A text, a number or a buffer after another. */ Concat(target, a, b) Concatenate (a, b, target));
operator!(/** A difference. */ Subtract(target, a, b) Subtract (a, b, target));
operator!(/** A product. */ Multiply(target, a, b) Multiply (a, b, target));
operator!(/** Bits shifted to the left. */ ShiftLeft(target, a, b) ShiftLeft (a, b, target));
operator!(/** Bits shifted to the right. */ ShiftRight(target, a, b) ShiftRight (a, b, target));
operator!(/** The bits that both have. */ And(target, a, b) And (a, b, target));
operator!(/** The bits that not both have. */ Nand(target, a, b) Nand (a, b, target));
operator!(/** The bits that one has. */ Or(target, a, b) Or (a, b, target));
operator!(/** The bits that none has. */ Nor(target, a, b) Nor (a, b, target));
operator!(/** The bits that only one has. */ Xor(target, a, b) Xor (a, b, target));
operator!(/** A resource template after another. */ ConcatRes(target, a, b) ConcatenateResTemplate (a, b, target));
operator!(/** A remainder. */ Mod(target, a, b) Mod (a, b, target));
operator!(/** A reference to an element. */ Index(target, a, b) Index (a, b, target));
operator!(/** A text of a buffer's bytes. */ ToString(target, a, b) ToString (a, b, target));
operator!(/** A field of four bytes in a buffer. */ CreateDWordField(target, a, b) CreateDWordField (a, b, target));
operator!(/** A field of eight bytes in a buffer. */ CreateQWordField(target, a, b) CreateQWordField (a, b, target));
operator!(/** A value as a buffer. */ ToBuffer(target, a) ToBuffer (a, target));
operator!(/** A value as a number. */ ToInteger(target, a) ToInteger (a, target));
operator!(/** A field of bits in a buffer. */ CreateField(name_string, source, bit_index, bit_num) CreateField
    (source, bit_index, bit_num, name_string));
operator!(/** A part of a text or a buffer. */ Mid(source, index, length, result) Mid (source, index, length, result));

/// An argument of a method, from 0 to 6. Others panic.
#[derive(Clone, Copy, Debug)]
pub struct Arg(pub u8);

impl Aml for Arg {
    fn to_aml_bytes(&self, sink: &mut dyn AmlSink) {
        emit(sink, |writer| {
            writer.argument(self.0);
        });
    }
}

/// A local variable of a method, from 0 to 7. Others panic.
#[derive(Clone, Copy, Debug)]
pub struct Local(pub u8);

impl Aml for Local {
    fn to_aml_bytes(&self, sink: &mut dyn AmlSink) {
        emit(sink, |writer| {
            writer.local(self.0);
        });
    }
}

/// Acquires a mutex, within milliseconds.
#[derive(Clone, Debug)]
pub struct Acquire {
    mutex: Path,
    timeout: u16,
}

impl Acquire {
    pub fn new(mutex: Path, timeout: u16) -> Self {
        Acquire { mutex, timeout }
    }
}

impl Aml for Acquire {
    fn to_aml_bytes(&self, sink: &mut dyn AmlSink) {
        emit(sink, |writer| {
            writer.acquire(self.mutex.text(), self.timeout);
        });
    }
}

/// Releases a mutex.
#[derive(Clone, Debug)]
pub struct Release {
    mutex: Path,
}

impl Release {
    pub fn new(mutex: Path) -> Self {
        Release { mutex }
    }
}

impl Aml for Release {
    fn to_aml_bytes(&self, sink: &mut dyn AmlSink) {
        emit(sink, |writer| {
            writer.release(self.mutex.text());
        });
    }
}

/// A call of a method.
pub struct MethodCall<'a> {
    name: Path,
    args: Vec<&'a dyn Aml>,
}

impl<'a> MethodCall<'a> {
    pub fn new(name: Path, args: Vec<&'a dyn Aml>) -> Self {
        MethodCall { name, args }
    }
}

impl Aml for MethodCall<'_> {
    fn to_aml_bytes(&self, sink: &mut dyn AmlSink) {
        emit(sink, |writer| {
            writer.path(self.name.text()).add_all(&self.args);
        });
    }
}
