//! Objects of AML (ACPI 6.5, 20), by the names of the Rust crate `acpi_tables`. Each writes its bytes by calls of the library.

mod data;
mod field;
mod named;
mod operator;
mod resource;
mod statement;

pub use data::{
    AmlStr, AmlString, BufferData, BufferTerm, Byte, DWord, EISAName, ONE, ONES, One, Ones,
    Package, PackageBuilder, QWord, Usize, Uuid, VarPackageTerm, Word, ZERO, Zero,
};
pub use field::{
    Field, FieldAccessType, FieldEntry, FieldLockRule, FieldUpdateRule, OpRegion, OpRegionSpace,
};
pub use named::{Device, Method, Mutex, Name, Path, PowerResource, Scope};
pub use operator::{
    Acquire, Add, And, Arg, Concat, ConcatRes, CreateDWordField, CreateField, CreateQWordField,
    DeRefOf, Equal, GreaterEqual, GreaterThan, Index, LessEqual, LessThan, Local, MethodCall, Mid,
    Mod, Multiply, Nand, Nor, NotEqual, Notify, ObjectType, Or, Release, ShiftLeft, ShiftRight,
    SizeOf, Store, Subtract, ToBuffer, ToInteger, ToString, Xor,
};
#[allow(deprecated)]
pub use resource::AddressSpaceCachable;
pub use resource::{
    AddressSpace, AddressSpaceCacheable, IO, Interrupt, Memory32Fixed, Register, ResourceTemplate,
};
pub use statement::{Else, If, Return, While};
