"""Checks messages of the Debug Adapter Protocol. The tables are written by hand from the specification at
https://microsoft.github.io/debug-adapter-protocol/specification; they cover the messages that the tests exchange.

A field is `name:type`, and `name?:type` where it may be absent. A type is int, str, bool, any, a structure, or one of
them in square brackets for a list. published.py checks against a copy of the published schema, if there is one."""
import re

PLAIN = {"int": int, "str": str, "bool": bool, "any": object}
STRUCTURES = {
    "Source": "name?:str path?:str sourceReference?:int presentationHint?:str origin?:str",
    "Breakpoint": "id?:int verified:bool message?:str source?:Source line?:int column?:int endLine?:int"
                  " instructionReference?:str offset?:int",
    "SourceBreakpoint": "line:int column?:int condition?:str hitCondition?:str logMessage?:str",
    "InstructionBreakpoint": "instructionReference:str offset?:int condition?:str hitCondition?:str",
    "DataBreakpoint": "dataId:str accessType?:str condition?:str hitCondition?:str",
    "Location": "line:int column?:int endLine?:int endColumn?:int",
    "StackFrame": "id:int name:str source?:Source line:int column:int instructionPointerReference?:str",
    "Scope": "name:str presentationHint?:str variablesReference:int namedVariables?:int expensive:bool",
    "Variable": "name:str value:str type?:str presentationHint?:Hint evaluateName?:str variablesReference:int",
    "Hint": "attributes?:[str] kind?:str visibility?:str",
    "Thread": "id:int name:str",
    "Instruction": "address:str instruction:str symbol?:str location?:Source line?:int presentationHint?:str",
    "Completion": "label:str text?:str type?:str start?:int length?:int",
    "Filter": "filter:str label:str description?:str default?:bool",
    "Details": "message?:str typeName?:str stackTrace?:str",
    "Format": "hex?:bool",
    "Error": "id:int format:str variables?:any showUser?:bool",
}
CAPABILITIES = ("ConfigurationDoneRequest StepBack DisassembleRequest InstructionBreakpoints SteppingGranularity "
                "SetVariable SetExpression EvaluateForHovers TerminateRequest RestartRequest DataBreakpoints "
                "CompletionsRequest ExceptionInfoRequest LoadedSourcesRequest BreakpointLocationsRequest "
                "ValueFormattingOptions ConditionalBreakpoints HitConditionalBreakpoints")
MOVE = ("threadId:int singleThread?:bool granularity?:str", "")
SET = "breakpoints:[Breakpoint]"
# The arguments of each request, and the body of its answer.
REQUESTS = {
    "initialize": ("adapterID:str clientID?:str linesStartAt1?:bool columnsStartAt1?:bool pathFormat?:str"
                   " supportsInvalidatedEvent?:bool", "exceptionBreakpointFilters?:[Filter] "
                   + " ".join(f"supports{name}?:bool" for name in CAPABILITIES.split())),
    # The other arguments of launch are the adapter's own.
    "launch": ("noDebug?:bool program:str token?:str fault?:str wild?:any text?:str source?:str stopOnEntry?:bool"
               " stopAtEnd?:bool", ""),
    "configurationDone": ("", ""), "restart": ("", ""), "terminate": ("restart?:bool", ""),
    "pause": ("threadId:int", ""),
    "disconnect": ("restart?:bool terminateDebuggee?:bool", ""),
    "threads": ("", "threads:[Thread]"),
    "stackTrace": ("threadId:int startFrame?:int levels?:int", "stackFrames:[StackFrame] totalFrames?:int"),
    "scopes": ("frameId:int", "scopes:[Scope]"),
    "variables": ("variablesReference:int start?:int count?:int format?:Format", "variables:[Variable]"),
    "setVariable": ("variablesReference:int name:str value:str", "value:str type?:str variablesReference?:int"),
    "setExpression": ("expression:str value:str frameId?:int", "value:str type?:str variablesReference?:int"),
    "evaluate": ("expression:str frameId?:int context?:str format?:Format",
                 "result:str type?:str variablesReference:int"),
    "completions": ("text:str column:int line?:int frameId?:int", "targets:[Completion]"),
    "exceptionInfo": ("threadId:int", "exceptionId:str description?:str breakMode:str details?:Details"),
    "source": ("source?:Source sourceReference:int", "content:str mimeType?:str"),
    "loadedSources": ("", "sources:[Source]"),
    "disassemble": ("memoryReference:str offset?:int instructionOffset?:int instructionCount:int",
                    "instructions:[Instruction]"),
    "setBreakpoints": ("source:Source breakpoints?:[SourceBreakpoint] sourceModified?:bool", SET),
    "setInstructionBreakpoints": ("breakpoints:[InstructionBreakpoint]", SET),
    "setDataBreakpoints": ("breakpoints:[DataBreakpoint]", SET),
    "setExceptionBreakpoints": ("filters:[str]", ""),
    "dataBreakpointInfo": ("variablesReference?:int name:str frameId?:int",
                           "dataId:any description:str accessTypes?:[str] canPersist?:bool"),
    "breakpointLocations": ("source:Source line:int endLine?:int", "breakpoints:[Location]"),
    "continue": ("threadId:int singleThread?:bool", "allThreadsContinued?:bool"),
    "reverseContinue": ("threadId:int singleThread?:bool", ""),
    "next": MOVE, "stepIn": MOVE, "stepOut": MOVE, "stepBack": MOVE,
    "gotoTargets": ("source:Source line:int", "targets:[any]"),
}
EVENTS = {
    "initialized": "", "terminated": "restart?:any", "exited": "exitCode:int",
    "process": "name:str isLocalProcess?:bool startMethod?:str", "output": "category?:str output:str",
    "stopped": "reason:str description?:str threadId?:int text?:str allThreadsStopped?:bool hitBreakpointIds?:[int]",
    "invalidated": "areas?:[str] threadId?:int",
}
# Fields that take only these words.
WORDS = {"breakMode": {"never", "always", "unhandled", "userUnhandled"}, "startMethod": {"launch", "attach",
         "attachForSuspendedLaunch"}, "accessType": {"read", "write", "readWrite"}}


def of_type(kind, value, at):
    """What is wrong with a value, as lines."""
    if kind[0] == "[":
        if not isinstance(value, list):
            return [f"{at}: {value!r} is no list"]
        return [line for i, part in enumerate(value) for line in of_type(kind[1:-1], part, f"{at}[{i}]")]
    if kind not in PLAIN:
        return of_fields(STRUCTURES[kind], value, at)
    fits = isinstance(value, PLAIN[kind]) and not (kind == "int" and isinstance(value, bool))
    return [] if fits else [f"{at}: {value!r} is no {kind}"]


def of_fields(fields, value, at):
    """What is wrong with the fields of an object, as lines."""
    if not isinstance(value, dict):
        return [f"{at}: {value!r} is no object"]
    bad, known = [], {}
    for field in fields.split():
        name, optional, kind = re.fullmatch(r"(\w+)(\??):(\S+)", field).groups()
        known[name] = kind
        if not optional and name not in value:
            bad.append(f"{at}: lacks {name}")
    for name, part in value.items():
        if name not in known:
            bad.append(f"{at}: {name} is not in the protocol")
            continue
        bad += of_type(known[name], part, f"{at}.{name}")
        if name in WORDS and part not in WORDS[name]:
            bad.append(f"{at}.{name}: {part!r} is none of its words")
    return bad


def check(message):
    """What is wrong with a message, as lines."""
    kind, name = message.get("type"), message.get("event", message.get("command"))
    at = f"{kind} {name}"
    if kind == "event":
        head, body = "seq:int type:str event:str", EVENTS.get(name)
    elif kind == "request":
        head, body = "seq:int type:str command:str", REQUESTS.get(name, (None,))[0]
    elif message.get("success") is False:
        head, body = "seq:int type:str request_seq:int success:bool command:str message:str", "error?:Error"
    else:
        head, body = "seq:int type:str request_seq:int success:bool command:str", REQUESTS.get(name, (None, None))[1]
    if body is None:
        return [f"{at}: not in the protocol"]
    part = "arguments" if kind == "request" else "body"
    bad = of_fields(head, {key: value for key, value in message.items() if key != part}, at)
    if part not in message:
        return bad + ([f"{at}: lacks {part}"] if re.search(r"\w:", body) else [])
    return bad + of_fields(body, message[part], f"{at}.{part}")
