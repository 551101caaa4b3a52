"""The SystemVerilog package that tells a record what the instances sample (hooks/covrec_pkg.sv is below it)."""



def package_text(book, name, notes):
    """A package with cov_begin, a function for each instance, and cov_end, and a module that writes the record."""
    lines = [HEAD.format(name=name)]
    lines += begin_lines(book, name)
    for place, instance in enumerate(book.instances):
        lines += sample_lines(book, instance, place)
    lines.append(TAIL.format(name=name))
    return "\n".join(lines)


HEAD = """// Written by hooks/svcover.py. Compile it with covrec_pkg.sv and covrec_dpi.c. Each function sample_GROUP_INSTANCE is
// called where the instance is sampled, with the values that stand behind it in its comment; the module {name}_end,
// made once in the bench or named as a second top, writes the record when the simulation ends.
package {name};
  import covrec_pkg::*;

  chandle rec = null;
  int refused = 0;

  function automatic void told(int answer);
    if (answer < 0) refused++;
  endfunction
"""

TAIL = """  // How the test ended: 0 OK, 1 WARNING, 2 ERROR, 3 FATAL. It is OK where nothing is said.
  function automatic void cov_outcome(int outcome);
    ready();
    told(covrec_outcome(rec, outcome));
  endfunction

  // Writes what was sampled up to now as a whole record; the test goes on.
  function automatic int cov_flush(string path);
    ready();
    told(covrec_time(rec, $time));
    return covrec_flush(rec, path);
  endfunction

  // Writes the record; negative where a call was refused or the file can't be written.
  function automatic int cov_end(string path);
    int done;
    ready();
    told(covrec_time(rec, $time));
    done = covrec_end(rec, path);
    rec = null;
    return done;
  endfunction
endpackage

module {name}_end;
  string path;
  final begin
    if (!$value$plusargs("covrec=%s", path)) path = "test.rec";
    if ({name}::refused != 0) $display("{name}: %0d calls were refused", {name}::refused);
    if ({name}::cov_end(path) < 0) $display("{name}: %s isn't written", path);
  end
endmodule
"""


def quoted(text):
    return f'"{text}"'


def begin_lines(book, name):
    lines = [
        "  // Begins the record of a test.",
        "  function automatic void cov_begin(string id, longint unsigned seed);",
        "    int inst;",
        "    rec = covrec_begin(id);",
        "    told(covrec_seed(rec, seed));",
    ]
    for it in book.signals:
        lines.append(f"    told(covrec_signal(rec, {quoted(it.name)}, {it.type.width}, {int(it.type.signed)}));")
    for it in book.instances:
        lines.append(f"    inst = covrec_instance(rec, {quoted(it.name)}, {quoted(it.group.name)});")
        for own in it.group.arguments() if it.group.is_sampled else ():
            lines.append(f"    told(covrec_argument(rec, inst, {own.type.width}, {int(own.type.signed)}));")
    return lines + [
        "  endfunction",
        "",
        "  // Begins it by the words +covtest=ID and +covseed=N of the simulation, where nothing was begun.",
        "  function automatic void ready();",
        "    string id;",
        "    longint unsigned seed;",
        "    if (rec != null) return;",
        '    if (!$value$plusargs("covtest=%s", id)) id = "test";',
        '    if (!$value$plusargs("covseed=%d", seed)) seed = 0;',
        "    cov_begin(id, seed);",
        "  endfunction",
        "",
    ]


def sample_lines(book, instance, place):
    """The function of an instance: its variables, then its arguments, and the sample."""
    group, text = instance.group, instance.site
    read = [it for it in text.signals() if not it.is_event]
    own = text.arguments() if text.is_sampled else []
    formals, calls, names = [], [], set()
    for it in read:
        name = fresh(it.name, names)
        formals.append(f"input {type_text(it.type)} {name}")
        number = book.signals.index(instance.signals[it.key])
        calls.append(f"    told(covrec_set_logic(rec, {number}, {wide(it.type, name)}));")
    for it in own:
        name = fresh(it.name, names)
        formals.append(f"input {type_text(it.type)} {name}")
        calls.append(f"    told(covrec_value_logic(rec, {wide(it.type, name)}));")
    function = f"sample_{group.name}_{instance.name}"
    return [
        f"  // {function}({', '.join([*(source_of(instance, it) for it in read), *(it.source for it in own)])})",
        f"  function automatic void {function}({', '.join(formals)});",
        "    ready();",
        *calls,
        f"    told(covrec_sample(rec, {place}));",
        "  endfunction",
        "",
    ]


def source_of(instance, reading):
    """What a bench hands on for a variable: a member of a formal as a member of what the instance was given."""
    return instance.signals[reading.key].source if reading.formal else reading.source


def fresh(name, names):
    while name in names or name in ("rec", "refused"):
        name += "_"
    names.add(name)
    return name


def type_text(kind):
    sign = " signed" if kind.signed else ""
    return f"logic{sign} [{kind.width - 1}:0]"


def wide(kind, name):
    return name if kind.width == 64 else f"{{{64 - kind.width}'b0, {name}}}"


