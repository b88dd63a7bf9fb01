#!/usr/bin/env python3
"""Writes docs/DEFINITIONS.md: each definition by its plain name, with the file and the line where it stands now.

Run it at the top of the repository after definitions have moved. It fails, naming the definition, where one is not found.
"""
import pathlib
import re
import sys

ROWS = [
    ("Modules", None, None, None, None),
    ("a module", "Items in order: kept lines, opaque functions, functions of the profile; the names of the globals; the first line that says big-endian.", "ir_types/src/module.rt", "pub struct Module", "Module Structure"),
    ("an instruction", "An id, a written name, the type of the result (of a store, of the value), an operation, and operands in the order of the form.", "ir_types/src/inst.rt", "pub struct Inst", "Instruction Reference"),
    ("an id", "Region 0 for what was read, counted over parameters and instructions; a region's number plus 1 for what its rewriting created.", "ir_types/src/id.rt", "pub struct Id", None),
    ("a walk", "A list of block numbers that starts at 0, each next one a target of the one before.", "ir_types/specs/Walks.antt", "IsWalk", "Terminator Instructions"),
    ("availability", "Along every walk to a use the definition stands before it.", "ir_types/specs/Available.antt", "IsAvailable", "Well-Formedness"),
    ("the first use that is not available", "In order of text and slot, with its shortest and among those least walk.", "ir_types/specs/Available.antt", "IsFirstMiss", "Well-Formedness"),
    ("a formed module", "Forms, types and ranges right, kept parts of headers such as stand there, names plain and each function's its own, ids once, targets and symbols there, phis first, one terminator last, uses available.", "ir_types/specs/Formed.antt", "IsFormed", "Well-Formedness"),
    ("plain names, results and literals", "Names are plain, what gives no value has none, a literal of a pointer is poison, no two functions have one name.", "ir_types/specs/Formed.antt", "IsPlain", None),
    ("a lawful list of stores", "2, 4, 8 or 16 stores of scalars of one block that a walk reaches.", "ir_types/specs/Formed.antt", "IsLawful", None),
    ("Tokens and lines", None, None, None, None),
    ("a token", "A name, a quoted name, `%` and digits, a string, a mark and its run, a run, or a single byte.", "ir_lex/specs/Tokens.antt", "IsToken", "Identifiers"),
    ("the longest token", "A token begins here, and none that begins here has more bytes.", "ir_lex/specs/Tokens.antt", "Longest", None),
    ("the tokens of a line", "Blanks are passed over, a comment ends them, and any other byte begins the longest token.", "ir_lex/specs/Tokens.antt", "AreTokens", None),
    ("a lexical fault", "A control byte, or the opening quote of a string that does not close.", "ir_lex/specs/Faults.antt", "is_fault", None),
    ("the first fault", "A fault with none before it.", "ir_lex/specs/Faults.antt", "FirstFault", None),
    ("the words of a line", "The bytes of its tokens.", "ir_lex/specs/Words.antt", "words", None),
    ("a form of a line in a function", "Its free choices, the line that it is, and its parts in order.", "ir_forms/specs/Forms.antt", "Form", "Instruction Reference"),
    ("what a line in a function spells", "No token, a brace, a form or a call, after which attachments may stand.", "ir_line/specs/Body.antt", "Spells", "Instruction Reference"),
    ("what a call spells", "Its parts by their tokens: result, TAIL, PRE, type, callee, arguments, POST; an operand is the longest end that is one.", "ir_line/specs/CallSpelling.antt", "SpellsCall", "'call' Instruction"),
    ("what a line outside functions spells", "Nothing, a line that is kept, or the first line of a function.", "ir_line/specs/Outside.antt", "Spells", "Module Structure"),
    ("a header", "What stands between `define` and the last brace.", "ir_line/specs/Headers.antt", "header", "Functions"),
    ("Drafts", None, None, None, None),
    ("the lines of a text", "Each ends at a line feed, and a carriage return just before it is dropped; a last piece is a line where it is not empty.", "ir_read/specs/Lines.antt", "lines_of", None),
    ("the first fault of a text", "The first line with a lexical fault, and its byte.", "ir_read/specs/Faults.antt", "first_fault", None),
    ("the forms of lines", "A `define` line starts a function, which ends at the next line that is `}` alone; lines inside are read as such.", "ir_read/specs/Forms.antt", "forms_of", "Functions"),
    ("what the whole text gives", "The names that no operand may be, and whether a layout has other pointers.", "ir_read/specs/Outlook.antt", "outlook_of", "Data Layout"),
    ("unnamed values", "One counter numbers unnamed parameters, blocks and results; a written number must be the next.", "ir_read/specs/Numbers.antt", "after_name", "Identifiers"),
    ("where a line may stand", "Labels after terminators, phis first, cases in a switch, a brace after the last terminator.", "ir_read/specs/Function.antt", "after_line", "Functions"),
    ("an instruction outside the profile", "An `alloca` outside the first block, a call, or one with an operand that names a function or a symbol that is no global.", "ir_read/specs/Function.antt", "is_outside", None),
    ("the limits", "100,000 instructions, 65,536 values and 4,096 blocks a function.", "ir_read/specs/Limits.antt", "passed", None),
    ("the draft of a text", "Its items in order, or the first that is wrong with it.", "ir_read/specs/Draft.antt", "draft_of", "Module Structure"),
    ("The text of a module", None, None, None, None),
    ("the text of a module", "Its items in order, with an empty line between a function and the item next to it.", "ir_print/specs/Text.antt", "text_of", "Module Structure"),
    ("the text of a function", "Header, blocks with their labels, instructions, closing brace.", "ir_print/specs/Text.antt", "func_text", "Functions"),
    ("the text of an instruction", "One definition a form.", "ir_print/specs/Instructions.antt", "act_text", "Instruction Reference"),
    ("names and numbers", "What has a written name shows it; the rest is numbered by one counter in order of the text.", "ir_print/specs/Names.antt", "names_of", "Identifiers"),
    ("the text of a literal", "Signed decimals, truth values, `poison`, `zeroinitializer`, or a list of lanes.", "ir_print/specs/Literals.antt", "literal_text", "Constants"),
    ("Lane arithmetic", None, None, None, None),
    ("a binary operation on lanes", "Undefined where a division is, else poison where an operand is, else the operation's row.", "vx_num/specs/Bin.antt", "bin_of", "Binary Operations"),
    ("a comparison of lanes", "1 where it holds, 0 where not.", "vx_num/specs/Cmp.antt", "cmp_of", "'icmp' Instruction"),
    ("a conversion of lanes", "Zero or sign extension, or truncation.", "vx_num/specs/Cast.antt", "cast_of", "Conversion Operations"),
    ("the address rule", "Offset plus sign-extended index times scale, modulo 2^64 as signed.", "vx_num/specs/Advance.antt", "advance_of", "'getelementptr' Instruction"),
    ("finer lanes", "The old one is poison, or both are the same.", "vx_num/specs/Refines.antt", "LaneRefines", "Poison Values"),
    ("Meanings", None, None, None, None),
    ("values", "A lane, a row of lanes, or a pointer: an object and a signed offset; each may be poison.", "ir_model/src/value.rt", "pub enum Value", "Poison Values"),
    ("one value may stand for another", "Lane by lane the old one is poison or both are the same.", "ir_model/specs/Values.antt", "ValueRefines", "Poison Values"),
    ("one memory may stand for another", "The objects agree in number and length, and each byte may stand for its mate.", "ir_model/specs/Memory.antt", "MemoryRefines", None),
    ("a store, a load", "Undefined where the range is not inside the object or the offset is no multiple of the align; little-endian.", "ir_model/specs/Memory.antt", "stored", "'store' Instruction, 'load' Instruction"),
    ("fitting arguments", "Types and ranges right, pointers poison or into an object, objects at most 2^47 bytes, the globals first.", "ir_model/specs/Fits.antt", "Fits", None),
    ("an operation on values", "Lane by lane, by the low bits of each lane; an undefined lane makes the whole undefined; a condition chooses, the other arm is ignored; lanes of vectors by index.", "ir_model/specs/Operations.antt", "bin_value", "Binary Operations, 'icmp' Instruction, Conversion Operations, 'select' Instruction, Vector Operations"),
    ("an address", "The offset plus each signed index times its size, modulo 2^64; `inbounds` is poison unless base and result lie in 0 to the object's length.", "ir_model/specs/Addresses.antt", "walked", "'getelementptr' Instruction"),
    ("an access", "What a load of a type gives, the bytes a store leaves, and the new last object of an alloca.", "ir_model/specs/Accesses.antt", "typed_load", "Memory Access and Addressing Operations"),
    ("one step", "What an instruction does to the environment and the memory, by one row for each form; a call is what calls come to, which is a parameter.", "ir_model/specs/Step.antt", "step", "Instruction Reference"),
    ("what calls come to", "Undefined, or cut with a memory, or a result with the memory and the bound that is left; undefined as long as calls are not read.", "ir_model/specs/Step.antt", "Calls", "'call' Instruction"),
    ("a bounded run", "Before each block the bound is looked at; phis read at once; a `noalias` argument that is shared makes the start undefined.", "ir_model/specs/Run.antt", "run_of", "Functions, Parameter Attributes"),
    ("the shape of a value", "A lane, as many lanes as the type has, or a pointer to an object that is there.", "ir_model/specs/Shapes.antt", "HasShape", None),
    ("shapes along a run", "What is defined on the walk that a run has taken has its type's shape.", "ir_model/specs/Shapes.antt", "IsShaped", None),
    ("a cause of undefined behaviour", "A division without a result, a bad access, a branch or switch on poison, `unreachable`.", "ir_model/specs/Causes.antt", "IsCause", "Undefined Behavior"),
    ("a run comes to a cause", "Along the run as it goes, one of its instructions has a cause.", "ir_model/specs/Causes.antt", "Meets", "Undefined Behavior"),
    ("monotone calls", "On finer arguments and memories they come to something finer.", "ir_model/specs/Monotone.antt", "CallsRefine", None),
    ("one outcome may stand for another", "The old run is undefined, or both end alike and value and memory refine.", "ir_model/specs/Refines.antt", "OutcomeRefines", None),
    ("one module refines another", "The same items, and headers that are written alike, and for every function, fitting arguments and memory and every bound a finer outcome.", "ir_model/specs/Refines.antt", "ModuleRefines", None),
    ("What the optimizer writes", None, None, None, None),
    ("two neighbouring stores joined", "The least pair of stores of literals, 4 bytes apart from one parameter with no load or store between, becomes one vector store.", "vx_serial/specs/Pair.antt", "pair_of", None),
    ("that pair is the least by places", "By the first store's place and then by the second's.", "vx_serial/specs/PairPlaces.antt", "JoinsLeast", None),
    ("a store of lanes", "The memory after the store instructions of neighbouring lanes.", "rf_pack/specs/Lanes.antt", "after_stores", "'store' Instruction"),
    ("Costs and orders", None, None, None, None),
    ("what an instruction costs", "By the key of its kind, with a `v` where it is of vectors.", "vx_cost/specs/Prices.antt", "cost_of", None),
    ("a price", "The sum of the costs, or 2^64 - 1 where the sum is greater.", "vx_cost/specs/Prices.antt", "price_of", None),
    ("a setting", "A key's name, `=`, and a number of up to 1,000,000 in decimal digits.", "vx_cost/specs/Settings.antt", "IsSetting", None),
    ("the first faulty setting", "The first word that is no setting, or sets a key that one before it sets.", "vx_cost/specs/Settings.antt", "IsFirstFault", None),
    ("a partition into groups", "Each place has one group, and no group is empty.", "vx_order/specs/Groups.antt", "IsPartition", None),
    ("the order of groups", "At each place the ready group of least position; none where none is ready.", "vx_order/specs/Order.antt", "order_of", None),
    ("a cycle of groups", "Each has an edge to the next, and the last to the first.", "vx_order/specs/Order.antt", "IsCycle", None),
    ("Threads", None, None, None, None),
    ("the rule of the tickets", "What holds of the word and of all hands between any two steps.", "rg_ticket/specs/Rule.antt", "IsKept", None),
    ("each number once", "Numbers below the limit alone, each once at most.", "rg_ticket/specs/Hands.antt", "IsEachOnce", None),
    ("Streams", None, None, None, None),
    ("a count rose", "It is greater than before, or stands at the last value of a counter.", "vx_io/specs/Count.antt", "Rose", None),
    ("a proper front was taken", "What was taken grew by a front of the bytes that lacks one or more.", "vx_io/specs/Bytes.antt", "AppendsFront", None),
    ("Names and types", None, None, None, None),
    ("the module of a draft", "Its names looked up and its types checked; else the first name defined twice, the first unknown, or the first line that is ill typed.", "ir_types_check/specs/Resolved.antt", "resolved_of", "Identifiers"),
    ("scopes", "What names mean; a scope has each of its names once.", "ir_types_check/specs/Scope.antt", "define", "Identifiers"),
    ("the names of a module", "Kept symbols, functions and opaque items in one namespace; `declare` defines nothing.", "ir_types_check/specs/Tops.antt", "tops_of", "Global Variables, Functions"),
    ("the names of a function", "Parameters, labels and results in one namespace; what has no name is known by its number.", "ir_types_check/specs/Locals.antt", "locals_of", "Identifiers"),
    ("what a line's names stand for", "In order of text, or the first that is unknown.", "ir_types_check/specs/Links.antt", "linked", None),
    ("an ill typed line", "An operand of another type than written, a wrong return, a branch to the first block, a case of another type or twice, a phi whose blocks or values do not fit.", "ir_types_check/specs/Typed.antt", "items_typed", "Type System, 'phi' Instruction"),
    ("what a line says fits", "Literals are of their types, and types, operations and operands go together.", "ir_line/specs/Sound.antt", "IsSound", "Instruction Reference"),
    ("What a text reads as", None, None, None, None),
    ("the items that a text is", "Its lines have forms, and each stands where it may; limits aside.", "ir_read/specs/Items.antt", "IsItems", None),
    ("what the items' names stand for", "No name is defined twice, each is known, and what they stand for makes the module.", "ir_types_check/specs/Named.antt", "Names", None),
    ("a text reads as a module", "Both of these.", "rf_text/specs/Reads.antt", "Reads", None),
    ("a text spells a module", "Each line has the form that the module has there, with its own names in the place of ids. A formed module that a text spells is the one that it reads as.", "rf_text/specs/Spelled.antt", "Spelled", None),
    ("a module that can be printed and read again", "Each name is given once, globals are those of the kept lines.", "rf_text/specs/Printable.antt", "IsPrintable", None),
    ("ids given anew", "0, 1 and so on over parameters and instructions in order of the text.", "ir_types/specs/Renumbered.antt", "renumbered", None),
    ("what is printed is read again", "The text of the module reads as it, with its ids given anew, and that is formed.", "rf_text/specs/Again.antt", "IsReadAgain", None),
    ("an instruction as its lines have it", "Names in place of ids.", "rf_text/specs/Written.antt", "forms_of", None),
    ("a kept part", "Bytes that begin and end with a token and lex alone.", "ir_types/specs/KeptParts.antt", "IsKeptPart", "Parameter Attributes"),
    ("accepted modules are formed", "Where a text is a draft and the draft resolves, the module is formed but for walks.", "rf_formed/specs/Accepted.antt", "IsFormedButForWalks", "Well-Formedness"),
    ("Words", None, None, None, None),
    ("what the words ask for", "`print` alone, `opt` alone, or `run --steps N CALL GLOBAL..`; else the place of the word that cannot stand.", "vec_words/specs/Commands.antt", "command_of", None),
    ("the place of a faulty word", "The least such that no words that hold begin with the words up to it.", "vec_words/specs/Commands.antt", "IsPlace", None),
    ("how a run starts", "The function, its arguments and the objects that the words say.", "vec_words/specs/Starts.antt", "start_of", None),
    ("the text of an outcome", "One line, and a line for each object.", "vec_words/specs/Outcomes.antt", "text_of_outcome", None),
    ("The program", None, None, None, None),
    ("a text is accepted as a module", "It reads as the module and spells it, within the limits and well typed; the module is formed and its layout has the low byte first.", "vec_top/specs/Accepts.antt", "Accepts", None),
    ("the first cause against a text", "In the order of the checks.", "vec_top/specs/Accepts.antt", "IsCause", None),
    ("what a command makes of a module", "Its text, the text of what `opt` makes of it, or the outcome of a run; or the word that does not fit.", "vec_top/specs/Results.antt", "result_of", None),
    ("what a command promises", "What `print` writes is read again; what `opt` writes is the text of one module, which refines what was read and is read again.", "vec_top/specs/Results.antt", "Promises", None),
    ("the replies", "What stands after each way to the end: each stream, each count, each text.", "vec_top/specs/Replies.antt", "Replies", None),
    ("Questions and changes", None, None, None, None),
    ("an answer", "What a scan of the module gives for a question.", "vx_view/specs/Answers.antt", "answer", None),
    ("reads that agree", "Each recorded question has in the module the recorded answer.", "vx_view/specs/Answers.antt", "Agrees", None),
    ("the form of an address", "Root, symbol with scale, and constant, back over at most 64 definitions of one block.", "vx_view/specs/Addresses.antt", "form", "getelementptr Instruction"),
    ("a conflict", "A call with what minds it, or two accesses of which one writes and that are not apart.", "vx_view/specs/Conflicts.antt", "conflict", "Pointer Aliasing Rules"),
    ("a dependence", "A later instruction uses an earlier one, conflicts with it, or both are allocas.", "vx_view/specs/Conflicts.antt", "depends", None),
    ("a change made", "Each instruction edited for itself.", "vx_view/specs/Changes.antt", "applied", None),
    ("a change that fits", "Ids, operands, types and places are such that it may be made.", "vx_view/specs/Changes.antt", "Fits", None),
    ("the inverse of a change", "What brings back the module in which it was made.", "vx_view/specs/Changes.antt", "inverse", None),
    ("exact use lists", "For each value the slots that hold it, each once.", "vx_view/specs/Uses.antt", "IsExact", None),
    ("the lists that slots make", "The list of a value is walked from its head, from each use to the next older one.", "sb_uses/specs/Chains.antt", "lists", None),
    ("a use put back", "After the use that was its newer neighbour, or at the head.", "sb_uses/specs/Places.antt", "put", None),
    ("slots that go and are kept", "The first slot first; each leaves its value's list, and the use after which it stood is kept with it.", "sb_uses/specs/Stock.antt", "taken", None),
    ("slots that come back", "What was kept last first, one for each operand, each after the use that it was kept with.", "sb_uses/specs/Stock.antt", "restored", None),
    ("use lists with what is kept, after a change", "Slots that come are added at the head, slots that go are kept.", "sb_uses/specs/StockAfter.antt", "stock_after", None),
    ("ids are apart", "No two parameters or instructions of a module have one id.", "sb_uses/specs/Totals.antt", "IdsApart", None),
    ("when a use can be put back", "Its list lacks it and has its newer neighbour; its head and its slot are still there.", "sb_uses/specs/Spots.antt", "CanPutBack", None),
    ("what a view holds", "Its own module and use lists, the reads since notes were opened, and what stood at the save of an open mark.", "vx_view/specs/Views.antt", "State", None),
    ("a view stands for a module", "With notes open and no mark, for every formed module that agrees with the reads; else for its own alone.", "vx_view/specs/Views.antt", "StandsFor", None),
    ("what calls over a view do with it", "Module, lists and mark stay, it stands for no more than before, and only questions of a kind were added.", "vx_view/specs/Views.antt", "Asks", None),
    ("which ids an address asks for", "Those that the walks follow or stop at.", "vx_addr/specs/Walks.antt", "form_names", None),
    ("Windows and their order", None, None, None, None),
    ("the window of bundles", "The instructions from the first member to the last that is looked at.", "vx_serial/specs/Window.antt", "window", None),
    ("the order of a window", "Its groups by dependences and least first position, each with its members in their own order; none where there is a cycle.", "vx_serial/specs/Window.antt", "order", None),
    ("bundles of a window", "Their members are instructions of the window, and none is twice.", "vx_serial/specs/Bundles.antt", "AreBundles", None),
    ("a graph that is right", "It holds instructions that follow one another in a block, each with what it does to memory there.", "vx_deps/specs/Graphs.antt", "IsRight", None),
    ("the order that a graph has", "That of the groups of bundles from the first member to the last that is held, under what depends on what.", "vx_deps/specs/Orders.antt", "order", None),
    ("a cycle of a window's groups", "Each has a member that a later member of the next depends on, and the last one such for the first.", "vx_deps/specs/Cycles.antt", "IsCycle", None),
    ("the regions of a module", "Lists of neighbouring stores of one width, cut from chains of addresses, in the order of the first store.", "vx_serial/specs/Regions.antt", "regions", None),
    ("how a bundle of lanes is had", "By an earlier node, by a vector that is there, packed for the first cause that holds, or widened.", "vx_serial/specs/Legal.antt", "legal", None),
    ("the tree of a region", "Its stores and what they lead to, bundle by bundle, each decided by what was visited before.", "vx_serial/specs/Tree.antt", "tree_of", None),
    ("a rewritten block", "Gathers, one vector instruction and extracts in the place of each widened bundle, without what goes.", "vx_serial/specs/Rewriting.antt", "rewritten", None),
    ("a rewritten module", "The module with the rewritten block in the place of the region's.", "rf_rewrite/specs/Rewritten.antt", "rewritten_module", None),
    ("the law of changes", "A region's changes fit one after another, and lead to the rewritten module.", "rf_rewrite/specs/Rewritten.antt", "ChangesLead", None),
    ("the changes of a region", "What is put in, moved, replaced and removed, one after another, to rewrite it.", "vx_serial/specs/Changing.antt", "changes", None),
    ("the verdict on a region", "Accepted where what is created costs less than what goes, costly where not, unpackable for the cause that packs its stores.", "vx_serial/specs/Serial.antt", "one", None),
    ("the serial pass", "The changes of each accepted region of the module that was read, in order.", "vx_serial/specs/Serial.antt", "serial", None),
    ("the neighbourhood of stores", "Which ids the questions of a trial may name.", "vx_serial/specs/Near.antt", "IsNear", None),
    ("a row in another order", "Each item stands after all that it depends on.", "rf_order/specs/Rows.antt", "Reordered", None),
    ("one run in place of another", "The old one is undefined, or both come to the same.", "rf_order/specs/Rows.antt", "Instead", None),
    ("accesses that keep apart", "Both only read, or no byte is touched by both.", "rf_order/specs/Swaps.antt", "KeepApart", "Pointer Aliasing Rules"),
    ("a state that is ready", "Values have their types' shapes, addresses are what their operands make them, and roots that never meet name different objects.", "rf_order/specs/Ready.antt", "IsReady", None),
    ("a block that is entered", "The same at a place of a block on a walk.", "rf_order/specs/Blocks.antt", "IsEntered", None),
    ("whole blocks in another order", "A block of a formed module with a window in its order comes to the same, where it was defined.", "rf_order/specs/Blocks.antt", "WholeBlocksRefine", None),
]


def line_of(path, name):
    """The line on which a definition's name stands as a definition."""
    if name.startswith("pub "):
        pattern = re.compile(re.escape(name) + r"\b")
    else:
        pattern = re.compile(r"^\s*(abbrev |unfoldable )?(pub )?(record |data )?" + re.escape(name) + r"\b[^=]*(:|\()")
    for number, line in enumerate(path.read_text().splitlines(), 1):
        if pattern.search(line):
            return number
    return None


def main():
    top = pathlib.Path(__file__).resolve().parent.parent
    out = ["# Definitions", "", "What a reader must believe: each definition by its plain name, what it says, where it stands, and the section of the LLVM",
           "Language Reference that it follows, where there is one. `scripts/definitions.py` writes this page.", ""]
    missing = []
    for plain, says, path, name, section in ROWS:
        if says is None:
            out += [f"## {plain}", "", "| Name | Says | Where | Language Reference |", "|---|---|---|---|"]
            continue
        file = top / "crates" / path
        number = line_of(file, name) if file.is_file() else None
        if number is None:
            missing.append(f"{name} in {path}")
            continue
        shown = name.split()[-1]
        out.append(f"| {plain} | {says} | `{shown}`, crates/{path}:{number} | {section or ''} |")
    text = "\n".join(out).replace("\n## ", "\n\n## ") + "\n"
    (top / "docs" / "DEFINITIONS.md").write_text(text)
    for name in missing:
        print(f"not found: {name}", file=sys.stderr)
    return 1 if missing else 0


sys.exit(main())
