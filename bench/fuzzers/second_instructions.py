"""The instructions of the second interpreter, by families. Each answers whether the instruction is one of its own."""
from class_model import ABSTRACT, FINAL, INTERFACE, PRIVATE, STATIC, STREAM, kind_of, kinds_of
from second_machine import (OUT, ZERO, Ended, Frame, Instance, Raised, Text, class_of, fault, narrowed, width_of,
                            wrapped)

LETTERS = {"i": "I", "l": "J", "a": "A"}
BITS = {"I": 32, "J": 64}


def constants(machine, frame, name, operands, at, end):
    if name == "nop":
        pass
    elif name == "aconst_null":
        frame.push(("A", None))
    elif name.startswith(("iconst_", "lconst_")):
        number = -1 if name.endswith("m1") else int(name[-1])
        frame.push((LETTERS[name[0]], number))
    elif name in ("bipush", "sipush"):
        frame.push(("I", operands[0]))
    elif name in ("ldc", "ldc_w", "ldc2_w"):
        frame.push(loaded(machine.classes.given[frame.owner].pool, name, operands[0]))
    else:
        return False
    frame.pc = end
    return True


def loaded(pool, name, index):
    """The value of an entry (JVMS 6.5, ldc)."""
    tag, *content = pool.get(index, (0, 0))
    if name == "ldc2_w":
        if tag == 5:
            return "J", content[0]
        raise Ended("Unsupported") if tag == 6 else fault("reference")
    if tag == 3:
        return "I", content[0]
    if tag == 8:
        return "A", Text(pool[content[0]][1])
    raise Ended("Unsupported") if tag in (4, 7, 15, 16) else fault("reference")


def variables(machine, frame, name, operands, at, end):
    base, _, number = name.partition("_")
    index = int(number) if number.isdigit() else operands[0] if operands else None
    if base in ("iload", "lload", "aload"):
        frame.load(LETTERS[name[0]], index)
    elif base in ("istore", "lstore", "astore"):
        frame.store(LETTERS[name[0]], index)
    elif name == "iinc":
        if index >= frame.code.max_locals:
            raise fault("local")
        kind, value = frame.locals.get(index, (None, None))
        if kind != "I":
            raise fault("kind")
        frame.locals[index] = ("I", wrapped(value + operands[1], 32))
    else:
        return False
    frame.pc = end
    return True


# Which places are taken from the top, and in which order they are put back: the top is 1.
STACK = {"pop": (1, []), "pop2": (2, []), "dup": (1, [1, 1]), "dup_x1": (2, [1, 2, 1]), "dup_x2": (3, [1, 3, 2, 1]),
         "dup2": (2, [2, 1, 2, 1]), "dup2_x1": (3, [2, 1, 3, 2, 1]), "dup2_x2": (4, [2, 1, 4, 3, 2, 1]),
         "swap": (2, [1, 2])}
# After how many places from the top no long may be cut in two.
CUTS = {"pop": [1], "pop2": [2], "dup": [1], "dup_x1": [1, 2], "dup_x2": [1, 3], "dup2": [2], "dup2_x1": [2, 3],
        "dup2_x2": [2, 4], "swap": [1, 2]}


def stack_forms(machine, frame, name, operands, at, end):
    if name not in STACK:
        return False
    count, order = STACK[name]
    places = [half for value in frame.stack for half in ([value] if width_of(value) == 1 else [value, "second"])]
    if len(places) < count:
        raise fault("empty")
    for cut in CUTS[name]:
        if places[-cut] == "second":
            raise fault("kind")
    put = places[:len(places) - count] + [places[-place] for place in order]
    if len(put) > frame.code.max_stack:
        raise fault("full")
    frame.stack = [value for value in put if value != "second"]
    frame.pc = end
    return True


def quotient(a, b):
    if b == 0:
        raise Raised("ArithmeticException")
    whole = abs(a) // abs(b)
    return whole if (a < 0) == (b < 0) else -whole


OPERATORS = {"add": lambda a, b: a + b, "sub": lambda a, b: a - b, "mul": lambda a, b: a * b, "div": quotient,
             "rem": lambda a, b: a - b * quotient(a, b), "and": lambda a, b: a & b, "or": lambda a, b: a | b,
             "xor": lambda a, b: a ^ b}


def arithmetic(machine, frame, name, operands, at, end):
    kind, operator = LETTERS.get(name[0]), name[1:]
    if kind in BITS and operator in OPERATORS:
        b, a = frame.pop(kind), frame.pop(kind)
        frame.push((kind, wrapped(OPERATORS[operator](a, b), BITS[kind])))
    elif name in ("ineg", "lneg"):
        frame.push((kind, wrapped(-frame.pop(kind), BITS[kind])))
    elif name in ("ishl", "lshl", "ishr", "lshr", "iushr", "lushr"):
        shift(frame, kind, operator)
    elif name == "lcmp":
        b, a = frame.pop("J"), frame.pop("J")
        frame.push(("I", (a > b) - (a < b)))
    elif name in ("i2l", "l2i"):
        value = frame.pop(kind)
        frame.push(("J", value) if name == "i2l" else ("I", wrapped(value, 32)))
    elif name in ("i2b", "i2c", "i2s"):
        frame.push(("I", narrowed(name[2].upper(), frame.pop("I"))))
    else:
        return False
    frame.pc = end
    return True


def shift(frame, kind, operator):
    distance, value = frame.pop("I"), frame.pop(kind)
    bits = BITS[kind]
    distance &= bits - 1
    if operator == "ushr":
        value &= (1 << bits) - 1
    frame.push((kind, wrapped(value << distance if operator == "shl" else value >> distance, bits)))


TESTS = {"eq": lambda a, b: a == b, "ne": lambda a, b: a != b, "lt": lambda a, b: a < b, "ge": lambda a, b: a >= b,
         "gt": lambda a, b: a > b, "le": lambda a, b: a <= b}


def same(a, b):
    """Whether two references are equal: strings by their texts."""
    return a == b if isinstance(a, Text) else a is b


def branches(machine, frame, name, operands, at, end):
    if name.startswith("if_icmp"):
        b, a = frame.pop("I"), frame.pop("I")
        taken = TESTS[name[-2:]](a, b)
    elif name.startswith("if_acmp"):
        b, a = frame.pop("A"), frame.pop("A")
        taken = same(a, b) == (name[-2:] == "eq")
    elif name in ("ifnull", "ifnonnull"):
        taken = (frame.pop("A") is None) == (name == "ifnull")
    elif name[:2] == "if":
        taken = TESTS[name[2:]](frame.pop("I"), 0)
    elif name in ("goto", "goto_w"):
        taken = True
    elif name in ("tableswitch", "lookupswitch"):
        key = frame.pop("I")
        default, pairs = operands
        frame.jump(at + next((offset for one, offset in pairs if one == key), default))
        return True
    else:
        return False
    if taken:
        frame.jump(at + operands[0])
    else:
        frame.pc = end
    return True


LOADED = {"i": "I", "l": "J", "a": "A", "b": "BZ", "c": "C", "s": "S"}
NEW_ARRAYS = {4: "Z", 5: "C", 8: "B", 9: "S", 10: "I", 11: "J"}


def arrays(machine, frame, name, operands, at, end):
    if name[1:] == "aload":
        index, array = frame.pop("I"), frame.pop("A")
        element(array, LOADED[name[0]])
        check(machine, array, index)
        frame.push((LETTERS.get(name[0], "I"), array.elements[index]))
    elif name[1:] == "astore":
        store_element(machine, frame, name)
    elif name == "newarray":
        if operands[0] in (6, 7):
            raise Ended("Unsupported")
        new_array(machine, frame, "[" + NEW_ARRAYS[operands[0]])
    elif name == "anewarray":
        component = named_class(machine, frame, operands[0])
        array = "[" + (component if component.startswith("[") else f"L{component};")
        if array.startswith("[" * 256) or len(array) > 65535:
            raise fault("reference")
        new_array(machine, frame, array)
    elif name == "arraylength":
        array = frame.pop("A")
        if array is None:
            raise Raised("NullPointerException")
        if getattr(array, "elements", None) is None:
            raise fault("kind")
        frame.push(("I", len(array.elements)))
    else:
        return False
    frame.pc = end
    return True


def element(array, types):
    """The element type of an array, which is one of these; null is raised."""
    if array is None:
        raise Raised("NullPointerException")
    if getattr(array, "elements", None) is None:
        raise fault("kind")
    component = array.name[1:]
    if component[0] not in ("L[" if types == "A" else types):
        raise fault("kind")
    return component


def check(machine, array, index):
    machine.looks_into(array)
    if not 0 <= index < len(array.elements):
        raise Raised("ArrayIndexOutOfBoundsException")


def store_element(machine, frame, name):
    value = frame.pop(LETTERS.get(name[0], "I"))
    index, array = frame.pop("I"), frame.pop("A")
    component = element(array, LOADED[name[0]])
    check(machine, array, index)
    if name[0] == "a" and value is not None:
        wanted = component if component[0] == "[" else component[1:-1]
        if not machine.classes.is_below(class_of(value), wanted):
            raise Raised("ArrayStoreException")
    array.elements[index] = narrowed("B" if component == "Z" else component[0], value)


def new_array(machine, frame, name):
    count = frame.pop("I")
    if count < 0:
        raise Raised("NegativeArraySizeException")
    zero = ZERO[kind_of(name[1:])][1]
    machine.pays(count)
    frame.push(("A", machine.made(name, elements=[zero] * count)))


def named_class(machine, frame, index):
    """The class that an entry names, which has to be there."""
    pool = machine.classes.given[frame.owner].pool
    tag, *content = pool.get(index, (0, 0))
    if tag != 7:
        raise fault("reference")
    name = pool[content[0]][1]
    if not machine.classes.known(name):
        raise Ended("Missing")
    return name


def objects(machine, frame, name, operands, at, end):
    if name == "new":
        made = new_class(machine, frame, operands[0])
        if machine.needs(made):
            return True
        frame.push(("A", machine.made(made, slots=slots_of(machine, made))))
    elif name in ("checkcast", "instanceof"):
        wanted, value = named_class(machine, frame, operands[0]), frame.pop("A")
        fits = value is not None and machine.classes.is_below(class_of(value), wanted)
        if name == "instanceof":
            frame.push(("I", int(fits)))
        elif value is None or fits:
            frame.push(("A", value))
        else:
            raise Raised("ClassCastException")
    elif name == "athrow":
        value = frame.pop("A")
        if value is None:
            raise Raised("NullPointerException")
        if not machine.classes.is_below(class_of(value), "java/lang/Throwable"):
            raise fault("kind")
        raise Raised("thrown", value)
    else:
        return False
    frame.pc = end
    return True


def monitors(machine, frame, name, operands, at, end):
    if name not in ("monitorenter", "monitorexit"):
        return False
    value = frame.pop("A")
    if value is None:
        raise Raised("NullPointerException")
    if not isinstance(value, Instance):
        raise Ended("Unsupported")
    if name == "monitorexit" and value.depth == 0:
        raise Raised("IllegalMonitorStateException")
    value.depth += 1 if name == "monitorenter" else -1
    frame.pc = end
    return True


def new_class(machine, frame, index):
    name = named_class(machine, frame, index)
    if name.startswith("["):
        raise fault("reference")
    if name in ("java/lang/String", "java/lang/System", STREAM):
        raise Ended("Unsupported")
    if name == "java/lang/Enum" or name in machine.classes.given and \
            machine.classes.given[name].flags & (ABSTRACT | INTERFACE):
        raise fault("reference")
    return name


def slots_of(machine, name):
    slots = {}
    for owner in machine.classes.above(name):
        if owner == "java/lang/Enum":
            slots.update({"name": ("A", None), "ordinal": ("I", 0)})
        for one in machine.classes.given[owner].fields if owner in machine.classes.given else []:
            if not one.has(STATIC) and one.descriptor not in "FD":
                slots[owner, one.name, one.descriptor] = ZERO[kind_of(one.descriptor)]
    return slots


def reference(machine, frame, index, tags):
    """The class, the name and the descriptor of an entry of one of these tags."""
    pool = machine.classes.given[frame.owner].pool
    tag, *content = pool.get(index, (0, 0, 0))
    if tag not in tags:
        raise fault("reference")
    name, member = pool[pool[content[0]][1]][1], pool[content[1]]
    return tag, name, (pool[member[1]][1], pool[member[2]][1])


def fields(machine, frame, name, operands, at, end):
    if name not in ("getstatic", "putstatic", "getfield", "putfield"):
        return False
    _, owner, member = reference(machine, frame, operands[0], (9,))
    if member[1] in "FD":
        raise Ended("Unsupported")
    found = machine.classes.field(owner, member) if machine.classes.known(owner) else None
    if not found:
        raise Ended("Missing")
    if found[1].has(STATIC) != name.endswith("static"):
        raise fault("reference")
    if name.endswith("static"):
        static_field(machine, frame, name, *found, end)
    else:
        instance_field(machine, frame, name, (found[0], *member), end)
    return True


def static_field(machine, frame, name, owner, one, end):
    inside = frame.owner == owner and (frame.method.name, frame.method.descriptor) == ("<clinit>", "()V") \
        and frame.method.has(STATIC)
    if name == "putstatic" and one.has(FINAL) and not inside:
        raise fault("reference")
    if machine.needs(owner):
        return
    place = (owner, one.name, one.descriptor)
    if name == "getstatic":
        frame.push(machine.statics[place] if owner in machine.classes.given else ("A", OUT))
    else:
        kind = kind_of(one.descriptor)
        machine.statics[place] = (kind, narrowed(one.descriptor, frame.pop(kind)))
    frame.pc = end


def instance_field(machine, frame, name, place, end):
    kind = kind_of(place[2])
    value = frame.pop(kind) if name == "putfield" else None
    target = frame.pop("A")
    if name == "getfield":
        frame.push(ZERO[kind])
        frame.stack.pop()
    if target is None:
        raise Raised("NullPointerException")
    if not isinstance(target, Instance) or place not in target.slots:
        raise fault("kind")
    machine.looks_into(target)
    if name == "putfield":
        target.slots[place] = (kind, narrowed(place[2], value))
    else:
        frame.push(target.slots[place])
    frame.pc = end


def calls(machine, frame, name, operands, at, end):
    tags = {"invokevirtual": (10,), "invokeinterface": (11,), "invokespecial": (10, 11), "invokestatic": (10, 11)}
    if name not in tags:
        return False
    tag, owner, member = reference(machine, frame, operands[0], tags[name])
    if any(kind in "FD" for kind in [*kinds_of(member[1])[0], kinds_of(member[1])[1]]):
        raise Ended("Unsupported")
    if not machine.classes.known(owner):
        raise Ended("Missing")
    if machine.classes.is_interface(owner) != (tag == 11):
        raise fault("reference")
    found = machine.classes.method(owner, member)
    if not found:
        raise Ended("Missing")
    if found[1].has(STATIC) != (name == "invokestatic") or member == ("<clinit>", "()V"):
        raise fault("reference")
    if name == "invokestatic" and machine.needs(found[0]):
        return True
    invoke(machine, frame, name, owner, member, found, end)
    return True


def invoke(machine, frame, name, owner, member, found, end):
    values = [(kind_of(kind), frame.pop(kind_of(kind))) for kind in reversed(kinds_of(member[1])[0])][::-1]
    special = machine.classes.special(frame.owner, owner, member) if name == "invokespecial" else None
    printed = (found if name != "invokespecial" else special or found)[0] == STREAM
    if printed and member[1] == "(Ljava/lang/String;)V" and not isinstance(values[0][1], (Text, type(None))):
        raise fault("kind")
    if name == "invokestatic":
        return machine.enter(*found, values)
    receiver = frame.pop("A")
    if receiver is None:
        raise Raised("NullPointerException")
    if receiver is OUT and owner != STREAM:
        raise fault("kind")
    if name == "invokespecial":
        found = special
    elif not found[1].has(PRIVATE):
        found = machine.classes.select(class_of(receiver), member)
    if not found:
        raise Ended("Missing")
    if found[0] in machine.classes.given:
        return machine.enter(*found, [("A", receiver), *values])
    built_in(machine, frame, found[0], member, receiver, values)
    frame.pc = end


def built_in(machine, frame, owner, member, receiver, values):
    """A member of a built-in class, run on a receiver that is not null."""
    name = member[0]
    if owner == STREAM:
        if receiver is not OUT:
            raise fault("kind")
        machine.printed.append(printed_text(member, values))
    elif name == "clone":
        if getattr(receiver, "elements", None) is None:
            raise fault("kind")
        machine.looks_into(receiver)
        machine.pays(len(receiver.elements))
        frame.push(("A", machine.made(receiver.name, elements=list(receiver.elements))))
    elif owner == "java/lang/Enum":
        if not machine.classes.is_below(class_of(receiver), owner):
            raise fault("kind")
        if name == "<init>":
            machine.looks_into(receiver)
            if receiver.slots["name"] != ("A", None):
                raise fault("named")
            if values[0] == ("A", None):
                raise Ended("Unsupported")
            receiver.slots["name"], receiver.slots["ordinal"] = values
        else:
            if receiver.slots["name"] == ("A", None):
                machine.looks_into(receiver)
            frame.push(receiver.slots[name])


def printed_text(member, values):
    end = "\n" if member[0] == "println" else ""
    if not values:
        return end
    kind, value = member[1][1], values[0][1]
    if kind == "C":
        text = shown_text(chr(value & 0xFFFF))
    elif kind == "Z":
        text = "true" if value else "false"
    elif kind == "L":
        text = "null" if value is None else shown_text(value.text)
    else:
        text = str(value)
    return text + end


def shown_text(text):
    """A text whose pairs of surrogates are one character each, and whose lone ones are question marks."""
    spelled = text.encode("utf-16-be", "surrogatepass")
    shown, pending = [], None
    for place in range(0, len(spelled), 2):
        unit = int.from_bytes(spelled[place:place + 2], "big")
        if pending is not None and 0xDC00 <= unit < 0xE000:
            shown[-1] = chr(0x10000 + (pending - 0xD800 << 10) + unit - 0xDC00)
            pending = None
        else:
            shown.append("?" if 0xD800 <= unit < 0xE000 else chr(unit))
            pending = unit if 0xD800 <= unit < 0xDC00 else None
    return "".join(shown)


def returns(machine, frame, name, operands, at, end):
    if not name.endswith("return"):
        return False
    kind = LETTERS.get(name[0]) if name != "return" else None
    wanted = kinds_of(frame.method.descriptor)[1]
    if (kind or "V") != ("V" if wanted == "V" else kind_of(wanted)):
        raise fault("kind")
    value = (kind, narrowed(wanted, frame.pop(kind))) if kind else None
    if len(machine.stack) == 1:
        machine.stack.pop()
        machine.ending = "Returned"
        return True
    below = machine.stack[-2]
    if isinstance(below, Frame):
        if value:
            below.push(value)
        below.pc = below.body[below.pc][2]
    machine.stack.pop()
    return True


FAMILIES = [constants, variables, stack_forms, arithmetic, branches, arrays, objects, monitors, fields, calls, returns]
