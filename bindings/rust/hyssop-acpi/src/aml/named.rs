//! Objects with a name (ACPI 6.5, 20.2.2 and 20.2.5).

use crate::object::{bytes_of, emit};
use crate::{Aml, AmlSink};

/// A name: parts of four characters with dots between them, perhaps after a backslash.
#[derive(Clone, Debug, PartialEq, Eq)]
pub struct Path {
    text: String,
}

impl Path {
    /// The name of a text. It panics if a part doesn't have four bytes.
    pub fn new(name: &str) -> Self {
        let path = Path {
            text: name.to_string(),
        };
        bytes_of(&path);
        path
    }

    pub(crate) fn text(&self) -> &str {
        &self.text
    }
}

impl From<&str> for Path {
    fn from(s: &str) -> Self {
        Path::new(s)
    }
}

impl Aml for Path {
    fn to_aml_bytes(&self, sink: &mut dyn AmlSink) {
        emit(sink, |writer| {
            writer.path(&self.text);
        });
    }
}

/// An object with a name (DefName).
#[derive(Clone, Debug)]
pub struct Name {
    bytes: Vec<u8>,
}

impl Name {
    pub fn new(path: Path, inner: &dyn Aml) -> Self {
        let mut bytes = Vec::new();
        emit(&mut bytes, |writer| {
            writer.name(path.text()).add(inner);
        });
        Name { bytes }
    }

    /// The characters of a field's name, as `CreateField` takes them.
    pub fn new_field_name(field_name: &str) -> Self {
        Name {
            bytes: field_name.as_bytes().to_vec(),
        }
    }
}

impl Aml for Name {
    fn to_aml_bytes(&self, sink: &mut dyn AmlSink) {
        emit(sink, |writer| {
            writer.bytes(&self.bytes);
        });
    }
}

/// A device.
pub struct Device<'a> {
    path: Path,
    children: Vec<&'a dyn Aml>,
}

impl<'a> Device<'a> {
    pub fn new(path: Path, children: Vec<&'a dyn Aml>) -> Self {
        Device { path, children }
    }
}

impl Aml for Device<'_> {
    fn to_aml_bytes(&self, sink: &mut dyn AmlSink) {
        emit(sink, |writer| {
            writer.device(self.path.text(), |device| {
                device.add_all(&self.children);
            });
        });
    }
}

/// A scope.
pub struct Scope<'a> {
    path: Path,
    children: Vec<&'a dyn Aml>,
}

impl<'a> Scope<'a> {
    pub fn new(path: Path, children: Vec<&'a dyn Aml>) -> Self {
        Scope { path, children }
    }

    /// The bytes of a scope around these.
    pub fn raw(path: Path, children: Vec<u8>) -> Vec<u8> {
        let mut bytes = Vec::new();
        emit(&mut bytes, |writer| {
            writer.scope(path.text(), |scope| {
                scope.bytes(&children);
            });
        });
        bytes
    }
}

impl Aml for Scope<'_> {
    fn to_aml_bytes(&self, sink: &mut dyn AmlSink) {
        emit(sink, |writer| {
            writer.scope(self.path.text(), |scope| {
                scope.add_all(&self.children);
            });
        });
    }
}

/// A method of 0 to 7 arguments. More panic.
pub struct Method<'a> {
    path: Path,
    args: u8,
    serialized: bool,
    children: Vec<&'a dyn Aml>,
}

impl<'a> Method<'a> {
    pub fn new(path: Path, args: u8, serialized: bool, children: Vec<&'a dyn Aml>) -> Self {
        Method {
            path,
            args,
            serialized,
            children,
        }
    }
}

impl Aml for Method<'_> {
    fn to_aml_bytes(&self, sink: &mut dyn AmlSink) {
        emit(sink, |writer| {
            writer.method(self.path.text(), self.args, self.serialized, |method| {
                method.add_all(&self.children);
            });
        });
    }
}

/// A power resource.
pub struct PowerResource<'a> {
    name: Path,
    level: u8,
    order: u16,
    children: Vec<&'a dyn Aml>,
}

impl<'a> PowerResource<'a> {
    pub fn new(name: Path, level: u8, order: u16, children: Vec<&'a dyn Aml>) -> Self {
        PowerResource {
            name,
            level,
            order,
            children,
        }
    }
}

impl Aml for PowerResource<'_> {
    fn to_aml_bytes(&self, sink: &mut dyn AmlSink) {
        emit(sink, |writer| {
            writer.power_resource(self.name.text(), self.level, self.order, |resource| {
                resource.add_all(&self.children);
            });
        });
    }
}

/// A mutex.
#[derive(Clone, Debug)]
pub struct Mutex {
    path: Path,
    sync_level: u8,
}

impl Mutex {
    pub fn new(path: Path, sync_level: u8) -> Self {
        Self { path, sync_level }
    }
}

impl Aml for Mutex {
    fn to_aml_bytes(&self, sink: &mut dyn AmlSink) {
        emit(sink, |writer| {
            writer.mutex(self.path.text(), self.sync_level);
        });
    }
}
