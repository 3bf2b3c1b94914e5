//! A child module of the published `arguments` (build.rs puts it there): it turns our forms into the source's own
//! values, calls what is private, and turns the values back.

use super::*;
use crate::evm::memory::{LabeledVec, MemoryChunk, MemoryChunks};
use crate::forms::{Answer, Arg, Chunk, Entry, Fact, Slot, State, Step, Tag, Watcher, Word};

#[path = "timed.rs"]
pub mod timed;

mod pieces {
    use super::super::*;

    pub(super) trait Watch {
        fn start(&mut self, vm: &Vm<Label, CallDataImpl>);
        fn step(
            &mut self,
            vm: &mut Vm<Label, CallDataImpl>,
            args: &mut ArgsResult,
            ret: StepResult<Label>,
        ) -> Result<(), Box<dyn std::error::Error>>;
    }

    include!(concat!(env!("OUT_DIR"), "/source/arguments/pieces.rs"));
}

fn val(arg: &Arg) -> Val {
    Val { offset: arg.offset, path: arg.path.clone(), add_val: arg.added, and_mask: arg.mask.map(U256::from_be_bytes) }
}

fn label(tag: &Tag) -> Option<Label> {
    match tag {
        Tag::None => None,
        Tag::CallData => Some(Label::CallData),
        Tag::Arg(arg) => Some(Label::Arg(val(arg))),
        Tag::ZeroTest(arg) => Some(Label::IsZeroResult(val(arg))),
    }
}

fn arg(val: &Val) -> Arg {
    Arg {
        offset: val.offset,
        path: val.path.clone(),
        added: val.add_val,
        mask: val.and_mask.map(|mask| mask.to_be_bytes()),
    }
}

fn tag(label: &Option<Label>) -> Tag {
    match label {
        None => Tag::None,
        Some(Label::CallData) => Tag::CallData,
        Some(Label::Arg(val)) => Tag::Arg(arg(val)),
        Some(Label::IsZeroResult(val)) => Tag::ZeroTest(arg(val)),
    }
}

fn element(slot: &Slot) -> Element<Label> {
    Element { data: slot.word, label: label(&slot.tag) }
}

fn slot(element: &Element<Label>) -> Slot {
    Slot { word: element.data, tag: tag(&element.label) }
}

fn code(ty: &DynSolType) -> u32 {
    match ty {
        DynSolType::Bool => 1,
        DynSolType::Address => 2,
        DynSolType::Bytes => 3,
        DynSolType::String => 4,
        DynSolType::Array(_) => 5,
        DynSolType::Uint(bits) => 1000 + *bits as u32,
        DynSolType::Int(bits) => 2000 + *bits as u32,
        DynSolType::FixedBytes(bytes) => 3000 + *bytes as u32,
        DynSolType::Tuple(parts) => 16384 + parts.len() as u32,
        _ => panic!("no code for {ty:?}"),
    }
}

fn put_codes(ty: &DynSolType, out: &mut Vec<u16>) {
    out.push(code(ty) as u16);
    match ty {
        DynSolType::Array(inner) => put_codes(inner, out),
        DynSolType::Tuple(parts) => parts.iter().for_each(|part| put_codes(part, out)),
        _ => (),
    }
}

fn name(code: u32) -> DynSolType {
    let width = (code % 1000) as usize;
    match (code / 1000, code) {
        (0, 1) => DynSolType::Bool,
        (0, 2) => DynSolType::Address,
        (0, 3) => DynSolType::Bytes,
        (0, 4) => DynSolType::String,
        (1, _) => DynSolType::Uint(width),
        (2, _) => DynSolType::Int(width),
        (3, _) => DynSolType::FixedBytes(width),
        _ => panic!("no name has the code {code}"),
    }
}

fn results(state: &State) -> ArgsResult {
    let mut args = ArgsResult { decoder_active: state.active, ..ArgsResult::default() };
    for fact in &state.facts {
        let info = fact.path.iter().fold(&mut args.data, |node, key| node.children.entry(*key).or_default());
        info.tinfo = match fact.kind {
            0 => None,
            1 => Some(InfoVal::Dynamic(fact.count)),
            _ => Some(InfoVal::Array(fact.count)),
        };
        info.tname = (fact.name != 0).then(|| (name(fact.name), fact.confidence as u8));
        info.range_blocked = fact.blocked;
    }
    args.not_bool.extend(state.not_bool.iter().cloned());
    args
}

fn facts(info: &Info, path: &mut Vec<u32>, out: &mut Vec<Fact>) {
    let (kind, count) = match info.tinfo {
        None => (0, 0),
        Some(InfoVal::Dynamic(n)) => (1, n),
        Some(InfoVal::Array(n)) => (2, n),
    };
    let (name, confidence) = info.tname.as_ref().map_or((0, 0), |(ty, confidence)| (code(ty), u32::from(*confidence)));
    out.push(Fact { path: path.clone(), kind, count, name, confidence, blocked: info.range_blocked });
    for (key, child) in &info.children {
        path.push(*key);
        facts(child, path, out);
        path.pop();
    }
}

fn state(args: &ArgsResult) -> State {
    let mut out = Vec::new();
    facts(&args.data, &mut Vec::new(), &mut out);
    State { facts: out, not_bool: args.not_bool.iter().cloned().collect(), active: args.decoder_active }
}

fn entries(vm: &Vm<Label, CallDataImpl>) -> Vec<Entry> {
    vm.memory
        .data
        .iter()
        .map(|(offset, held)| Entry { offset: *offset, bytes: held.data.clone(), tag: tag(&held.label) })
        .collect()
}

fn slots(vm: &Vm<Label, CallDataImpl>) -> Vec<Slot> {
    vm.stack.data.iter().map(slot).collect()
}

fn chunks(load: &Option<(u32, Vec<Chunk>)>) -> Option<MemoryChunks<Label>> {
    load.as_ref().map(|(size, chunks)| MemoryChunks {
        chunks: chunks
            .iter()
            .map(|chunk| MemoryChunk {
                dst_range: chunk.from..chunk.to,
                src_range: chunk.from..chunk.to,
                src_label: label(&chunk.tag).expect("a chunk has a label"),
            })
            .collect(),
        size: *size,
    })
}

fn entries_of(memory: &[Entry]) -> Vec<(u32, LabeledVec<Label>)> {
    memory
        .iter()
        .map(|entry| (entry.offset, LabeledVec { data: entry.bytes.clone(), label: label(&entry.tag) }))
        .collect()
}

fn result_of(step: &Step) -> StepResult<Label> {
    StepResult {
        op: step.op,
        gas_used: 0,
        args: [element(&step.args[0]), element(&step.args[1])],
        exargs: Vec::new(),
        memory_load: chunks(&step.load),
    }
}

/// One call of `analyze`: true if it gave an error.
pub fn analyze(code: &[u8], held: &mut State, stack: &mut Vec<Slot>, memory: &mut Vec<Entry>, step: &Step) -> bool {
    let calldata = CallDataImpl { selector: [0; 4] };
    let mut vm = Vm::new(code, &calldata);
    vm.pc = step.pc;
    vm.stack.data = stack.iter().map(element).collect();
    vm.memory.data = entries_of(memory);
    let mut args = results(held);
    let failed = super::analyze(&mut vm, &mut args, result_of(step)).is_err();
    *held = state(&args);
    *stack = slots(&vm);
    *memory = entries(&vm);
    failed
}

/// What `function_arguments` reads at its start.
pub fn least_words(code: &[u8], pc: usize, packed: Option<Word>) -> Option<usize> {
    let calldata = CallDataImpl { selector: [0; 4] };
    let mut vm = Vm::new(code, &calldata);
    vm.pc = pc;
    if let Some(data) = packed {
        vm.stack.push_data(data);
    }
    pieces::least_words(&vm)
}

/// What `function_arguments` does before and after its loop.
pub fn close(code: &[u8], pc: usize, packed: Option<Word>, held: &mut State) -> Answer {
    let mut args = results(held);
    let types = pieces::tail(&mut args, least_words(code, pc, packed));
    *held = state(&args);
    answer(&args, &types)
}

fn answer(args: &ArgsResult, types: &[DynSolType]) -> Answer {
    if args.data.children.is_empty() {
        assert!(types.is_empty());
        return Answer::None;
    }
    let mut left = 2 * MAX_ARGUMENT_WORDS;
    if !args.data.fits_type_budget(&mut left, 0) {
        assert!(types.is_empty());
        return Answer::Over;
    }
    let mut codes = Vec::new();
    types.iter().for_each(|ty| put_codes(ty, &mut codes));
    Answer::Granted(left, types.len(), codes)
}

struct Seen<'a> {
    watcher: &'a mut dyn Watcher,
}

impl pieces::Watch for Seen<'_> {
    fn start(&mut self, vm: &Vm<Label, CallDataImpl>) {
        self.watcher.start(vm.pc, vm.stack.peek().ok().map(|top| top.data));
    }

    fn step(
        &mut self,
        vm: &mut Vm<Label, CallDataImpl>,
        args: &mut ArgsResult,
        ret: StepResult<Label>,
    ) -> Result<(), Box<dyn std::error::Error>> {
        let load = ret.memory_load.as_ref().map(|load| {
            let chunks = load.chunks.iter().map(|chunk| Chunk {
                from: chunk.dst_range.start,
                to: chunk.dst_range.end,
                tag: tag(&Some(chunk.src_label.clone())),
            });
            (load.size, chunks.collect())
        });
        let step = Step { op: ret.op, pc: vm.pc, args: [slot(&ret.args[0]), slot(&ret.args[1])], load };
        self.watcher.before(&step, &slots(vm), &entries(vm));
        let begun = std::time::Instant::now();
        let done = super::analyze(vm, args, ret);
        self.watcher.took(begun.elapsed());
        self.watcher.after(done.is_err(), &state(args), &slots(vm), &entries(vm));
        done
    }
}

/// `function_arguments`, with each step shown to a watcher; the codes of its list.
pub fn watch(code: &[u8], selector: [u8; 4], gas_limit: u32, watcher: &mut dyn Watcher) -> Vec<u16> {
    let mut codes = Vec::new();
    pieces::watched_arguments(&mut Seen { watcher }, code, &selector, gas_limit)
        .iter()
        .for_each(|ty| put_codes(ty, &mut codes));
    codes
}

/// The published `function_arguments` itself: the codes of its list.
pub fn arguments(code: &[u8], selector: [u8; 4], gas_limit: u32) -> Vec<u16> {
    let mut codes = Vec::new();
    super::function_arguments(code, &selector, gas_limit).iter().for_each(|ty| put_codes(ty, &mut codes));
    codes
}

pub fn mask_type(mask: Word) -> u32 {
    and_mask_to_type(U256::from_be_bytes(mask)).map_or(0, |ty| code(&ty))
}

pub fn guard_failure(code: &[u8], pc: usize, less_than: bool) -> Option<usize> {
    guard_failure_pc(code, pc, less_than)
}
