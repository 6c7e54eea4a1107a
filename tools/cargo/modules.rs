//! Random modules that `encode` writes, each valid.
use pulleynavy_program::encode::{Module, Refused, SectionItem, expression_len, write_expression};
use pulleynavy_program::parser::{
    BinaryReader, CompositeType, ConstExpr, ConstOperator, Data, DataKind, Export, ExternalKind, FuncType, FunctionBody, Global, GlobalType, HeapType, Import,
    MemoryType, RecGroup, RefType, SubType, SubTypes, Table, TableInit, TableType, TagKind, TagType, TypeRef, ValType, ValTypes,
};
use pulleynavy_program::std::alloc::Global as Alloc;

/// Numbers that look random, the same ones for a seed (xorshift64*).
pub struct Random(u64);

impl Random {
    pub fn new(seed: u64) -> Self {
        Random(seed.wrapping_mul(0x9e37_79b9_7f4a_7c15) | 1)
    }

    fn next(&mut self) -> u64 {
        self.0 ^= self.0 >> 12;
        self.0 ^= self.0 << 25;
        self.0 ^= self.0 >> 27;
        self.0.wrapping_mul(0x2545_f491_4f6c_dd1d)
    }

    pub fn below(&mut self, bound: u32) -> u32 {
        ((self.next() >> 32) % u64::from(bound)) as u32
    }

    fn is_heads(&mut self) -> bool {
        self.below(2) == 0
    }

    /// A number with as many bits as chance gives it.
    fn number(&mut self) -> u64 {
        let bits = self.below(64);
        self.next() >> bits
    }

    fn of<T: Copy>(&mut self, all: &[T]) -> T {
        all[self.below(all.len() as u32) as usize]
    }
}

/// A module, and the id and the number of items of each section.
pub struct Made {
    pub bytes: Vec<u8>,
    pub sections: Vec<(u8, u32)>,
}

/// What is known of a module so far.
struct Plan {
    module: Module<Alloc>,
    sections: Vec<(u8, u32)>,
    types: u32,
    functions: Vec<u32>,
    globals: u32,
    tables: Vec<RefType>,
    has_memory: bool,
}

const EXTERNREF: RefType = RefType { nullable: true, heap: HeapType::Extern };

const NUMBERS: [ValType; 5] = [ValType::I32, ValType::I64, ValType::F32, ValType::F64, ValType::V128];

fn val_type(random: &mut Random) -> ValType {
    match random.below(7) {
        5 => ValType::Ref(RefType::FUNCREF),
        6 => ValType::Ref(EXTERNREF),
        _ => random.of(&NUMBERS),
    }
}

fn val_types(random: &mut Random, bound: u32) -> ValTypes {
    ValTypes::from_vec((0..random.below(bound)).map(|_| val_type(random)).collect())
}

/// The types of functions, of which the first has neither parameters nor results.
fn types(random: &mut Random) -> Vec<RecGroup> {
    let count = 1 + random.below(5);
    let bound = |at| if at == 0 { 1 } else { 9 };
    let function = |random: &mut Random, at| FuncType { params: val_types(random, bound(at)), results: val_types(random, bound(at)) };
    let alone = |function| SubType { is_final: true, supertype: None, composite: CompositeType::Func(function) };
    let group = |ty| RecGroup { explicit: false, types: SubTypes::from_vec([ty].into_iter().collect()) };
    (0..count).map(|at| group(alone(function(random, at)))).collect()
}

fn memory(random: &mut Random) -> MemoryType {
    let initial = u64::from(random.below(300));
    let maximum = random.is_heads().then(|| initial + u64::from(random.below(300)));
    MemoryType { memory64: false, shared: false, initial, maximum, page_size_log2: None }
}

fn table(random: &mut Random) -> TableType {
    let initial = u64::from(random.below(300));
    let maximum = random.is_heads().then(|| initial + u64::from(random.below(300)));
    TableType { element_type: random.of(&[RefType::FUNCREF, EXTERNREF]), table64: false, initial, maximum, shared: false }
}

/// The bytes of an expression of this type.
fn expression(random: &mut Random, ty: ValType, functions: u32) -> Vec<u8> {
    let operator = match ty {
        ValType::I32 => ConstOperator::I32Const { value: random.number() as i32 },
        ValType::I64 => ConstOperator::I64Const { value: random.number() as i64 },
        ValType::Ref(reference) if reference == RefType::FUNCREF && functions > 0 => ConstOperator::RefFunc { function_index: random.below(functions) },
        ValType::Ref(reference) => ConstOperator::RefNull { hty: reference.heap },
        _ => ConstOperator::I32Const { value: 0 },
    };
    let operators = [operator];
    let mut bytes = vec![0; expression_len(&operators)];
    write_expression(&mut bytes, 0, &operators);
    bytes
}

fn window(bytes: &[u8]) -> ConstExpr<'_> {
    ConstExpr::new(BinaryReader::new(bytes, 0))
}

impl Plan {
    fn add<T: SectionItem>(&mut self, items: &[T]) {
        if items.is_empty() {
            return;
        }
        assert_eq!(self.module.section(items), Ok::<(), Refused>(()));
        self.sections.push((T::section_id(), items.len() as u32));
    }

    fn import(&mut self, random: &mut Random) -> TypeRef {
        match random.below(5) {
            0 if !self.has_memory => {
                self.has_memory = true;
                TypeRef::Memory(memory(random))
            }
            1 => {
                let ty = table(random);
                self.tables.push(ty.element_type);
                TypeRef::Table(ty)
            }
            2 => {
                self.globals += 1;
                TypeRef::Global(GlobalType { content_type: val_type(random), mutable: random.is_heads(), shared: false })
            }
            3 => TypeRef::Tag(TagType { kind: TagKind::Exception, func_type_idx: 0 }),
            _ => {
                let ty = random.below(self.types);
                self.functions.push(ty);
                TypeRef::Func(ty)
            }
        }
    }

    fn imports(&mut self, random: &mut Random) {
        let names: Vec<String> = (0..random.below(6)).map(|at| format!("name{}", "é".repeat(at as usize * 7))).collect();
        let imports: Vec<Import<'_>> = names.iter().map(|name| Import { module: "env", name, ty: self.import(random) }).collect();
        self.add(&imports);
    }

    /// Functions, tables and memories. Returns the number of functions.
    fn definitions(&mut self, random: &mut Random) -> usize {
        let functions: Vec<u32> = (0..random.below(6)).map(|_| random.below(self.types)).collect();
        self.add(&functions);
        self.functions.extend(&functions);
        let tables: Vec<Table<'_>> = (0..random.below(3)).map(|_| Table { ty: table(random), init: TableInit::RefNull }).collect();
        self.add(&tables);
        self.tables.extend(tables.iter().map(|table| table.ty.element_type));
        if !self.has_memory && random.is_heads() {
            self.has_memory = true;
            self.add(&[memory(random)]);
        }
        let tags: Vec<TagType> = (0..random.below(3)).map(|_| TagType { kind: TagKind::Exception, func_type_idx: 0 }).collect();
        self.add(&tags);
        functions.len()
    }

    fn globals(&mut self, random: &mut Random) {
        let types: Vec<ValType> =
            (0..random.below(5)).map(|_| val_type(random)).filter(|ty| !matches!(ty, ValType::F32 | ValType::F64 | ValType::V128)).collect();
        let values: Vec<Vec<u8>> = types.iter().map(|ty| expression(random, *ty, self.functions.len() as u32)).collect();
        let globals: Vec<Global<'_>> = types
            .iter()
            .zip(&values)
            .map(|(ty, value)| Global { ty: GlobalType { content_type: *ty, mutable: random.is_heads(), shared: false }, init_expr: window(value) })
            .collect();
        self.add(&globals);
        self.globals += globals.len() as u32;
    }

    fn exports(&mut self, random: &mut Random) {
        let spaces = [(ExternalKind::Func, self.functions.len() as u32), (ExternalKind::Global, self.globals), (ExternalKind::Table, self.tables.len() as u32)];
        let names: Vec<String> = (0..random.below(200)).map(|at| format!("export {at}")).collect();
        let chosen = names.iter().map(|name| (name, random.of(&spaces), random.number()));
        let exports: Vec<Export<'_>> = chosen
            .filter(|(_, (_, bound), _)| *bound > 0)
            .map(|(name, (kind, bound), index)| Export { name, kind, index: (index % u64::from(bound)) as u32 })
            .collect();
        self.add(&exports);
        if let Some(start) = self.functions.iter().position(|ty| *ty == 0) {
            assert_eq!(self.module.start(start as u32), Ok(()));
        }
    }

    fn segments(&mut self, random: &mut Random, bodies: usize) {
        let contents: Vec<Vec<u8>> = (0..random.below(4)).map(|_| vec![7; random.below(300) as usize]).collect();
        if !contents.is_empty() {
            assert_eq!(self.module.data_count(contents.len() as u32), Ok(()));
        }
        // No locals, `unreachable` and `end`.
        let code: Vec<FunctionBody<'_>> = (0..bodies).map(|_| FunctionBody::new(BinaryReader::new(b"\0\0\x0b", 0))).collect();
        self.add(&code);
        let address = expression(random, ValType::I32, 0);
        let has_memory = self.has_memory;
        let mut kind = || match has_memory && random.is_heads() {
            true => DataKind::Active { memory_index: 0, offset_expr: window(&address) },
            false => DataKind::Passive,
        };
        let data: Vec<Data<'_>> = contents.iter().map(|bytes| Data { kind: kind(), bytes, range: 0..0 }).collect();
        self.add(&data);
    }
}

/// A module that is valid, with random sections.
pub fn made(random: &mut Random) -> Made {
    let module = Module::new(Alloc).expect("memory");
    let mut plan = Plan { module, sections: Vec::new(), types: 0, functions: Vec::new(), globals: 0, tables: Vec::new(), has_memory: false };
    let types = types(random);
    plan.types = types.len() as u32;
    plan.add(&types);
    plan.imports(random);
    let bodies = plan.definitions(random);
    plan.globals(random);
    plan.exports(random);
    plan.segments(random, bodies);
    assert_eq!(plan.module.custom("made", &vec![1; random.below(300) as usize]), Ok(()));
    let bytes = plan.module.finish().expect("a whole module");
    Made { bytes: bytes.to_vec(), sections: plan.sections }
}
