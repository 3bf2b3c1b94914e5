//! Edits of the published source. Each must find its place exactly once, else the source is another one.

/// The place where a text stands; it has to stand there once and nowhere else.
pub fn place(text: &str, part: &str) -> Result<usize, String> {
    let mut found = text.match_indices(part).map(|(at, _)| at);
    match (found.next(), found.next()) {
        (Some(at), None) => Ok(at),
        (None, _) => Err(format!("not in it: {part:?}")),
        _ => Err(format!("more than once in it: {part:?}")),
    }
}

fn replaced(text: &str, old: &str, new: &str) -> Result<String, String> {
    let at = place(text, old)?;
    Ok(text[..at].to_string() + new + &text[at + old.len()..])
}

/// What `function_arguments` does before and after its loop as functions of their own, and the whole of it with a
/// watcher.
pub fn cut(text: &str) -> Result<String, String> {
    let whole = &text[place(text, "pub fn function_arguments(")?..];
    let first = place(whole, "    let mut min_calldata_words = direct_min_calldata_words(vm.code, vm.pc);\n")?;
    let second = place(whole, "    while !vm.stopped {\n")?;
    let third = place(whole, "    // A single array without decoded elements contributes")?;
    let watched =
        replaced(whole, "pub fn function_arguments(", "pub(super) fn watched_arguments(watch: &mut dyn Watch, ")?;
    let watched = replaced(&watched, "    while !vm.stopped {\n", "    watch.start(&vm);\n    while !vm.stopped {\n")?;
    let watched = replaced(
        &watched,
        "if analyze(&mut vm, &mut args, ret).is_err() {",
        "if watch.step(&mut vm, &mut args, ret).is_err() {",
    )?;
    Ok(format!(
        "pub(super) fn least_words(vm: &Vm<Label, CallDataImpl>) -> Option<usize> {{\n{}    min_calldata_words\n}}\n\n\
         pub(super) fn tail(args: &mut ArgsResult, min_calldata_words: Option<usize>) -> Vec<DynSolType> {{\n{}\n{}",
        &whole[first..second],
        &whole[third..],
        watched
    ))
}

/// Mutant `number` of a list: a title `== number file reason`, the lines of a place to start from (marked `@`), old
/// lines (`-`) and new ones (`+`).
pub fn mutate(texts: &mut [(&str, String)], list: &str, number: &str) -> Result<(), String> {
    let mut entries = list.split("\n== ");
    let entry = entries.find(|entry| entry.split_whitespace().next() == Some(number));
    let entry = entry.ok_or_else(|| format!("there is no mutant {number}"))?;
    let file = entry.split_whitespace().nth(1).unwrap_or_default();
    let part = |mark: char| {
        let lines: Vec<&str> = entry.lines().skip(1).filter_map(|line| line.strip_prefix(mark)).collect();
        lines.join("\n")
    };
    let text = texts.iter_mut().find(|(name, _)| *name == file).map(|(_, text)| text);
    let text = text.ok_or_else(|| format!("mutant {number}: there is no file {file}"))?;
    let start = if part('@').is_empty() { 0 } else { place(text, &part('@'))? };
    let (old, new) = (part('-'), part('+'));
    let at = text[start..].find(&old).ok_or_else(|| format!("mutant {number}: not in it: {old:?}"))? + start;
    if old == new || start == 0 && place(text, &old)? != at {
        return Err(format!("mutant {number} changes nothing, or something else"));
    }
    *text = text[..at].to_string() + &new + &text[at + old.len()..];
    Ok(())
}
