//! The test of the compiled code: a function's instructions, as objdump prints them.

/// The instructions of a function in a disassembly, from its label to the next empty line.
fn instructions<'a>(disassembly: &'a str, function: &str) -> Vec<&'a str> {
    let label = format!("<{function}>:");
    let behind = disassembly.lines().skip_while(|line| !line.ends_with(&label)).skip(1);
    behind.take_while(|line| !line.is_empty()).filter_map(|line| line.split('\t').nth(1)).collect()
}

/// Does an instruction go by the processor's flags, or leave the function other than by its end?
fn is_fault(instruction: &str) -> bool {
    let name = instruction.split(' ').next().unwrap_or_default();
    ["j", "set", "cmov", "loop", "call"].iter().any(|start| name.starts_with(start))
}

/// How many instructions a function has, or its faults: a jump, a conditional set or move, a call, or no
/// multiplication before its one end.
pub fn check(disassembly: &str, function: &str) -> Result<usize, Vec<String>> {
    let all = instructions(disassembly, function);
    let mut faults: Vec<String> =
        all.iter().filter(|i| is_fault(i)).map(|i| format!("`{function}` has `{i}`")).collect();
    if !all.iter().any(|i| i.starts_with("imul") || i.starts_with("mul")) {
        faults.push(format!("`{function}` is not there, or has no multiplication"));
    }
    if all.iter().position(|i| i.starts_with("ret")) != all.len().checked_sub(1) {
        faults.push(format!("`{function}` has no end, or more than one"));
    }
    if faults.is_empty() {
        Ok(all.len())
    } else {
        Err(faults)
    }
}

#[cfg(test)]
mod tests {
    use super::*;

    /// The conversion as it was compiled with its cap by `if`.
    const BY_COMPARISON: &str = "
Disassembly of section .text.tus_of:

0000000000000000 <tus_of>:
   0:\timul   $0x7d,%edi,%ecx
   3:\tshr    $0x7,%ecx
   6:\tcmp    $0x10625,%edi
   c:\tmov    $0xffff,%eax
  11:\tcmovb  %ecx,%eax
  14:\tret

Disassembly of section .text.other:
";

    fn replaced(instruction: &str) -> String {
        BY_COMPARISON.replace("cmovb  %ecx,%eax", instruction)
    }

    #[test]
    fn a_conditional_move_is_found() {
        let found = check(BY_COMPARISON, "tus_of");
        assert_eq!(found, Err(vec!["`tus_of` has `cmovb  %ecx,%eax`".to_string()]));
    }

    #[test]
    fn straight_instructions() {
        assert_eq!(check(&replaced("sub    %ecx,%eax"), "tus_of"), Ok(6));
    }

    #[test]
    fn jumps_sets_and_calls_are_found() {
        for instruction in ["jb     14 <tus_of+0x14>", "jmp    0 <tus_of>", "setb   %al", "call   0 <other>"]
        {
            let found = check(&replaced(instruction), "tus_of");
            assert_eq!(found, Err(vec![format!("`tus_of` has `{instruction}`")]));
        }
    }

    #[test]
    fn two_ends_are_found() {
        assert!(check(&replaced("ret"), "tus_of").is_err());
    }

    #[test]
    fn a_function_that_is_not_there_is_a_fault() {
        assert!(check(BY_COMPARISON, "another").is_err());
    }
}
