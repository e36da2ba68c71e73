// Random calls for AML. This file is a part of two modules: in each, `tables` is one of both crates.

use crate::random::Random;
use tables::Aml;
use tables::aml::*;

type Object = &'static dyn Aml;

fn bytes_of(object: &dyn Aml) -> Vec<u8> {
    let mut bytes = Vec::new();
    object.to_aml_bytes(&mut bytes);
    bytes
}

// Objects refer to those inside. They are never freed.
fn keep(object: impl Aml + 'static) -> Object {
    Box::leak(Box::new(object))
}

const NAME: &str = "ABCDEFGHIJKLMNOPQRSTUVWXYZ_0123456789";
const PRINTS: &str = " !\"#$%&'()*+,-./0123456789:;<=>?@ABCXYZ[\\]^_`abcxyz{|}~";

fn path(r: &mut Random) -> Path {
    let count = r.one_of(&[1, 1, 1, 2, 2, 3, 4, 20, 255]);
    let parts: Vec<String> = (0..count).map(|_| r.text(NAME, 4)).collect();
    let root = if r.bool() { "\\" } else { "" };
    Path::new(&format!("{root}{}", parts.join(".")))
}

fn text(r: &mut Random) -> String {
    let count = r.one_of(&[0, 1, 5, 30, 64, 300]);
    r.text(PRINTS, count)
}

fn eisa(r: &mut Random) -> EISAName {
    let letters = r.text("ABCDEFGHIJKLMNOPQRSTUVWXYZ", 3);
    EISAName::new(&format!("{letters}{}", r.text("0123456789ABCDEF", 4)))
}

fn uuid(r: &mut Random) -> Uuid {
    let parts: Vec<String> = [8, 4, 4, 4, 12]
        .iter()
        .map(|count| r.text("0123456789abcdefABCDEF", *count))
        .collect();
    Uuid::new(&parts.join("-"))
}

fn leaf(r: &mut Random) -> Object {
    match r.below(15) {
        0 => keep(ZERO),
        1 => keep(ONE),
        2 => keep(ONES),
        3 => keep(r.u8()),
        4 => keep(r.u16()),
        5 => keep(r.u32()),
        6 => keep(r.u64()),
        7 => keep(r.u64() as usize),
        8 => {
            let text: &'static str = Box::leak(text(r).into_boxed_str());
            keep(text)
        }
        9 => keep(text(r)),
        10 => keep(eisa(r)),
        11 => keep(uuid(r)),
        12 => keep(path(r)),
        13 => keep(Arg(r.below(7) as u8)),
        _ => keep(Local(r.below(8) as u8)),
    }
}

fn cacheable(r: &mut Random) -> AddressSpaceCacheable {
    r.one_of(&[
        AddressSpaceCacheable::NotCacheable,
        AddressSpaceCacheable::Cacheable,
        AddressSpaceCacheable::WriteCombining,
        AddressSpaceCacheable::PreFetchable,
    ])
}

macro_rules! address_space {
    ($name:ident $number:ty) => {
        fn $name(r: &mut Random) -> Object {
            let (min, max) = r.range(<$number>::MAX.into());
            let (min, max) = (min as $number, max as $number);
            let translation = r.bool().then(|| r.u64() as $number);
            keep(match r.below(3) {
                0 => AddressSpace::new_memory(cacheable(r), r.bool(), min, max, translation),
                1 => AddressSpace::new_io(min, max, translation),
                _ => AddressSpace::new_bus_number(min, max),
            })
        }
    };
}

address_space!(word_space u16);
address_space!(dword_space u32);
address_space!(qword_space u64);

fn descriptor(r: &mut Random) -> Object {
    match r.below(6) {
        0 => keep(Memory32Fixed::new(r.bool(), r.u32(), r.u32())),
        1 => keep(IO::new(r.u16(), r.u16(), r.u8(), r.u8())),
        2 => keep(Interrupt::new(
            r.bool(),
            r.bool(),
            r.bool(),
            r.bool(),
            r.u32(),
        )),
        3 => word_space(r),
        4 => dword_space(r),
        _ => qword_space(r),
    }
}

// Bytes whose PkgLength has 1, 2, 3 or 4 bytes.
fn buffer(r: &mut Random) -> Vec<u8> {
    let most = match r.below(400) {
        0 => 1_100_000,
        1..10 => 70_000,
        10..100 => 5_000,
        _ => 80,
    };
    r.bytes(most)
}

fn entry(r: &mut Random) -> FieldEntry {
    let bits = r
        .below(1 << 28)
        .min(r.one_of(&[1, 8, 63, 64, 4096, 1 << 20, 1 << 28]));
    if r.bool() {
        let name = r.text(NAME, 4);
        FieldEntry::Named(name.as_bytes().try_into().unwrap(), bits)
    } else {
        FieldEntry::Reserved(bits)
    }
}

fn field(r: &mut Random) -> Field {
    let access = r.one_of(&[
        FieldAccessType::Any,
        FieldAccessType::Byte,
        FieldAccessType::Word,
        FieldAccessType::DWord,
        FieldAccessType::QWord,
        FieldAccessType::Buffer,
    ]);
    let lock = r.one_of(&[FieldLockRule::NoLock, FieldLockRule::Lock]);
    let update = r.one_of(&[
        FieldUpdateRule::Preserve,
        FieldUpdateRule::WriteAsOnes,
        FieldUpdateRule::WriteAsZeroes,
    ]);
    let count = r.below(20);
    let entries = (0..count).map(|_| entry(r)).collect();
    Field::new(path(r), access, lock, update, entries)
}

fn space(r: &mut Random) -> OpRegionSpace {
    r.one_of(&[
        OpRegionSpace::SystemMemory,
        OpRegionSpace::SystemIO,
        OpRegionSpace::PCIConfig,
        OpRegionSpace::EmbeddedControl,
        OpRegionSpace::SMBus,
        OpRegionSpace::SystemCMOS,
        OpRegionSpace::PciBarTarget,
        OpRegionSpace::IPMI,
        OpRegionSpace::GeneralPurposeIO,
        OpRegionSpace::GenericSerialBus,
    ])
}

fn objects(r: &mut Random, depth: usize) -> Vec<Object> {
    let count = r.below(4);
    (0..count).map(|_| object(r, depth)).collect()
}

fn package_builder(r: &mut Random, depth: usize) -> PackageBuilder {
    let mut package = PackageBuilder::new();
    for element in objects(r, depth) {
        package.add_element(element);
    }
    package
}

// Objects with a name or a content.
fn framed(r: &mut Random, d: usize) -> Object {
    match r.below(17) {
        0 => keep(Name::new(path(r), object(r, d))),
        1 => keep(Package::new(objects(r, d))),
        2 => keep(package_builder(r, d)),
        3 => keep(VarPackageTerm::new(object(r, d))),
        4 => keep(Device::new(path(r), objects(r, d))),
        5 => keep(Scope::new(path(r), objects(r, d))),
        6 => keep(Method::new(
            path(r),
            r.below(8) as u8,
            r.bool(),
            objects(r, d),
        )),
        7 => keep(field(r)),
        8 => keep(OpRegion::new(path(r), space(r), object(r, d), object(r, d))),
        9 => keep(If::new(object(r, d), objects(r, d))),
        10 => keep(Else::new(objects(r, d))),
        11 => keep(While::new(object(r, d), objects(r, d))),
        12 => keep(BufferTerm::new(object(r, d))),
        13 => keep(BufferData::new(buffer(r))),
        14 => {
            let count = r.below(6);
            keep(ResourceTemplate::new(
                (0..count).map(|_| descriptor(r)).collect(),
            ))
        }
        15 => keep(MethodCall::new(path(r), objects(r, d))),
        _ => keep(Mutex::new(path(r), r.u8())),
    }
}

macro_rules! operators {
    ($($arity:ident: $($name:ident)*;)*) => {$(
        fn $arity(r: &mut Random, d: usize) -> Object {
            let makers: &[fn(&mut Random, usize) -> Object] = &[$(operators!(@$arity $name),)*];
            r.one_of(makers)(r, d)
        }
    )*};
    (@of_one $name:ident) => { |r, d| keep($name::new(object(r, d))) };
    (@of_two $name:ident) => { |r, d| keep($name::new(object(r, d), object(r, d))) };
    (@of_three $name:ident) => { |r, d| keep($name::new(object(r, d), object(r, d), object(r, d))) };
    (@of_four $name:ident) => {
        |r, d| keep($name::new(object(r, d), object(r, d), object(r, d), object(r, d)))
    };
}

operators! {
    of_one: ObjectType SizeOf Return DeRefOf;
    of_two: Equal LessThan GreaterThan NotEqual GreaterEqual LessEqual Store Notify ToBuffer ToInteger;
    of_three: Add Concat Subtract Multiply ShiftLeft ShiftRight And Nand Or Nor Xor ConcatRes Mod Index ToString CreateDWordField
        CreateQWordField;
    of_four: CreateField Mid;
}

fn object(r: &mut Random, depth: usize) -> Object {
    if depth == 0 {
        return leaf(r);
    }
    let d = depth - 1;
    match r.below(12) {
        0 | 1 => leaf(r),
        2..7 => framed(r, d),
        7 => of_one(r, d),
        8 => of_two(r, d),
        9 => of_three(r, d),
        10 => of_four(r, d),
        _ => match r.below(3) {
            0 => keep(Acquire::new(path(r), r.u16())),
            1 => keep(Release::new(path(r))),
            _ => {
                let name = r.text(NAME, 4);
                keep(Name::new_field_name(&name))
            }
        },
    }
}

pub fn aml_tree(r: &mut Random) -> Vec<u8> {
    let depth = r.below(6);
    bytes_of(object(r, depth))
}

pub fn raw_scope(r: &mut Random) -> Vec<u8> {
    let path = path(r);
    let content = buffer(r);
    Scope::raw(path, content)
}

pub fn descriptors(r: &mut Random) -> Vec<u8> {
    bytes_of(descriptor(r))
}

pub fn power_resource(r: &mut Random) -> Vec<u8> {
    bytes_of(&PowerResource::new(path(r), r.u8(), r.u16(), objects(r, 2)))
}

// ---- what one of both refuses, or both

pub fn wrong_argument(r: &mut Random) -> Vec<u8> {
    match r.below(2) {
        0 => bytes_of(&Arg(7 + r.below(249) as u8)),
        _ => bytes_of(&Local(8 + r.below(248) as u8)),
    }
}

pub fn wrong_path(r: &mut Random) -> Vec<u8> {
    let count = r.one_of(&[0, 1, 2, 3, 5, 6]);
    let part = r.text(NAME, count);
    let text = [part.clone(), format!("\\{part}"), format!("_SB_.{part}")][r.below(3)].clone();
    bytes_of(&Path::new(&text))
}

pub fn wrong_id(r: &mut Random) -> Vec<u8> {
    match r.below(2) {
        0 => {
            let count = r.below(7);
            bytes_of(&EISAName::new(&r.text(NAME, count)))
        }
        _ => {
            let count = r.below(36);
            bytes_of(&Uuid::new(&r.text("0123456789abcdef-", count)))
        }
    }
}

pub fn other_letters(r: &mut Random) -> Vec<u8> {
    let letters = r.text("abcdefghijklmnopqrstuvwxyz", 3);
    bytes_of(&EISAName::new(&format!(
        "{letters}{}",
        r.text("0123456789", 4)
    )))
}

pub fn many_arguments(r: &mut Random) -> Vec<u8> {
    bytes_of(&Method::new(
        path(r),
        8 + r.below(248) as u8,
        r.bool(),
        objects(r, 1),
    ))
}

pub fn many_elements(r: &mut Random) -> Vec<u8> {
    let element = keep(ZERO);
    bytes_of(&Package::new(vec![element; 256 + r.below(100)]))
}

pub fn many_parts(r: &mut Random) -> Vec<u8> {
    let parts = vec![r.text(NAME, 4); 256 + r.below(100)];
    bytes_of(&Path::new(&parts.join(".")))
}

pub fn wide_entries(r: &mut Random) -> Vec<u8> {
    let bits = (1 << 28) + r.below(1 << 20);
    let entry = if r.bool() {
        FieldEntry::Reserved(bits)
    } else {
        FieldEntry::Named(*b"WIDE", bits)
    };
    let (access, lock) = (FieldAccessType::Any, FieldLockRule::NoLock);
    bytes_of(&Field::new(
        path(r),
        access,
        lock,
        FieldUpdateRule::Preserve,
        vec![entry],
    ))
}

pub fn no_ascii(r: &mut Random) -> Vec<u8> {
    let text = text(r) + r.one_of(&["\u{80}", "ä", "\u{20ac}"]);
    bytes_of(&text)
}

pub fn empty_range(r: &mut Random) -> Vec<u8> {
    let min = 1 + r.below(65_535) as u16;
    let max = r.below(min.into()) as u16;
    match r.below(3) {
        0 => bytes_of(&AddressSpace::new_io(min, max, None)),
        1 => bytes_of(&AddressSpace::new_bus_number(
            u64::from(min),
            u64::from(max),
        )),
        _ => bytes_of(&AddressSpace::new_io(0, u32::MAX, None)),
    }
}
