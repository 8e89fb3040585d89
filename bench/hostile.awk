# Writes the tree of one family of bench/hostile.sh, of the size: awk -v family=NAME -v size=N -f bench/hostile.awk.

function row(depth, role, kind, text) {
    printf ",[%d,\"%s\",\"%s\",0,0,\"%s\",[]]", depth, role, kind, text
}

function marked(depth, role, kind, text, mark) {
    printf ",[%d,\"%s\",\"%s\",0,0,\"%s\",[\"%s\"]]", depth, role, kind, text, mark
}

# text var|let|const, one name, as a statement
function variable(depth, text, name) {
    row(depth, "body", "VariableDeclaration", text)
    row(depth + 1, "declarators", "VariableDeclarator", "")
    row(depth + 2, "id", "BindingIdentifier", name)
}

function use(depth, name) {
    row(depth, "body", "ExpressionStatement", "")
    row(depth + 1, "expression", "IdentifierReference", name)
}

function declared_function(depth, name) {
    row(depth, "body", "Function", "declaration")
    row(depth + 1, "id", "BindingIdentifier", name)
    row(depth + 1, "params", "FormalParameters", "formal")
    row(depth + 1, "body", "FunctionBody", "")
}

function expressed_function(depth, role) {
    row(depth, role, "Function", "expression")
    row(depth + 1, "params", "FormalParameters", "formal")
}

# The head of a function whose parameters are to follow at depth 3. Its body has to come last.
function parameters() {
    row(1, "body", "Function", "declaration")
    row(2, "id", "BindingIdentifier", "f")
    row(2, "params", "FormalParameters", "formal")
}

function parameter(depth) {
    row(depth, "items", "FormalParameter", "")
}

# function f(a0, a1, ..) {}
function parameters_plain(i) {
    parameters()
    for (i = 0; i < size; i++) {
        parameter(3)
        row(4, "pattern", "BindingIdentifier", "a" i)
    }
    row(2, "body", "FunctionBody", "")
}

# function f(a0 = d, a1 = d, ..) {}
function parameters_with_defaults(i) {
    parameters()
    for (i = 0; i < size; i++) {
        parameter(3)
        row(4, "pattern", "BindingIdentifier", "a" i)
        row(4, "initializer", "IdentifierReference", "d")
    }
    row(2, "body", "FunctionBody", "")
}

# function f({ a0 }, { a1 }, ..) {}
function parameters_in_patterns(i) {
    parameters()
    for (i = 0; i < size; i++) {
        parameter(3)
        row(4, "pattern", "ObjectPattern", "")
        row(5, "properties", "BindingProperty", "")
        row(6, "key", "IdentifierName", "a" i)
        row(6, "value", "BindingIdentifier", "a" i)
    }
    row(2, "body", "FunctionBody", "")
}

# function f({ a0, a1, .. }) {}
function parameters_in_one_pattern(i) {
    parameters()
    parameter(3)
    row(4, "pattern", "ObjectPattern", "")
    for (i = 0; i < size; i++) {
        row(5, "properties", "BindingProperty", "")
        row(6, "key", "IdentifierName", "a" i)
        row(6, "value", "BindingIdentifier", "a" i)
    }
    row(2, "body", "FunctionBody", "")
}

# function f(a0 = function (c) {}, a1 = function (c) {}, ..) {}
function parameters_with_functions(i) {
    parameters()
    for (i = 0; i < size; i++) {
        parameter(3)
        row(4, "pattern", "BindingIdentifier", "a" i)
        expressed_function(4, "initializer")
        row(6, "items", "FormalParameter", "")
        row(7, "pattern", "BindingIdentifier", "c")
        row(5, "body", "FunctionBody", "")
    }
    row(2, "body", "FunctionBody", "")
}

# let f = (a, a, ..) => {};
function parameters_of_one_name(i) {
    row(1, "body", "VariableDeclaration", "let")
    row(2, "declarators", "VariableDeclarator", "")
    row(3, "id", "BindingIdentifier", "f")
    row(3, "init", "ArrowFunctionExpression", "")
    row(4, "params", "FormalParameters", "arrow")
    for (i = 0; i < size; i++) {
        parameter(5)
        row(6, "pattern", "BindingIdentifier", "a")
    }
    row(4, "body", "FunctionBody", "")
}

function namespace(depth, role, name) {
    row(depth, role, "TSNamespaceDeclaration", "")
    row(depth + 1, "id", "BindingIdentifier", name)
}

function specifier(depth, name) {
    row(depth, "specifiers", "ExportSpecifier", "")
    row(depth + 1, "local", "IdentifierReference", name)
    row(depth + 1, "exported", "IdentifierName", name)
}

function export_of(depth, name) {
    row(depth, "body", "ExportNamedDeclaration", "")
    specifier(depth + 1, name)
}

# namespace N { interface I0 {} interface I1 {} .. }
function namespace_declarations(i) {
    namespace(1, "body", "N")
    row(2, "body", "TSModuleBlock", "")
    for (i = 0; i < size; i++) {
        row(3, "body", "TSInterfaceDeclaration", "")
        row(4, "id", "BindingIdentifier", "I" i)
        row(4, "body", "TSInterfaceBody", "")
    }
}

# namespace N { interface I0 {} interface I1 {} .. export { I0, I1, .. } }
function namespace_exports(i) {
    namespace_declarations()
    row(3, "body", "ExportNamedDeclaration", "")
    for (i = 0; i < size; i++) specifier(4, "I" i)
}

# namespace N { export interface I0 {} export interface I1 {} .. }
function namespace_exported_declarations(i) {
    namespace(1, "body", "N")
    row(2, "body", "TSModuleBlock", "")
    for (i = 0; i < size; i++) {
        row(3, "body", "ExportDeclaration", "")
        row(4, "declaration", "TSInterfaceDeclaration", "")
        row(5, "id", "BindingIdentifier", "I" i)
        row(5, "body", "TSInterfaceBody", "")
    }
}

# namespace N0 {} namespace N1 { export { N0 } } ..
function namespace_chain(i) {
    namespace(1, "body", "N0")
    row(2, "body", "TSModuleBlock", "")
    for (i = 1; i < size; i++) {
        namespace(1, "body", "N" i)
        row(2, "body", "TSModuleBlock", "")
        export_of(3, "N" (i - 1))
    }
}

# namespace N0 { export { N1 } } namespace N1 { export { N2 } } .. of which the last exports the first
function namespace_ring(i) {
    for (i = 0; i < size; i++) {
        namespace(1, "body", "N" i)
        row(2, "body", "TSModuleBlock", "")
        export_of(3, "N" ((i + 1) % size))
    }
}

# 600 times namespace N { namespace N { .. } }, so deep
function namespace_nests(i, depth) {
    for (i = 0; i < 600; i++) {
        for (depth = 1; depth < size; depth += 2) {
            namespace(depth, "body", "N")
            row(depth + 1, "body", "TSModuleBlock", "")
        }
    }
}

# namespace N {} namespace N {} ..
function namespaces_of_one_name(i) {
    for (i = 0; i < size; i++) {
        namespace(1, "body", "N")
        row(2, "body", "TSModuleBlock", "")
    }
}

# var a; var a; ..
function redeclarations(i) {
    for (i = 0; i < size; i++) variable(1, "var", "a")
}

# let a; let a; ..
function conflicts(i) {
    for (i = 0; i < size; i++) variable(1, "let", "a")
}

# function f() {} function f() {} ..
function functions_of_one_name(i) {
    for (i = 0; i < size; i++) declared_function(1, "f")
}

# { function f0() {} function f1() {} .. }
function functions_of_one_block(i) {
    row(1, "body", "BlockStatement", "")
    for (i = 0; i < size; i++) declared_function(2, "f" i)
}

# { function f() {} } { function f() {} } ..
function functions_of_many_blocks(i) {
    for (i = 0; i < size; i++) {
        row(1, "body", "BlockStatement", "")
        declared_function(2, "f")
    }
}

# { function f0() {} } { function f1() {} } ..
function functions_of_blocks_of_their_own(i) {
    for (i = 0; i < size; i++) {
        row(1, "body", "BlockStatement", "")
        declared_function(2, "f" i)
    }
}

# { let f0; let f1; .. { function f0() {} function f1() {} .. } }
function functions_below_namesakes(i) {
    row(1, "body", "BlockStatement", "")
    for (i = 0; i < size; i++) variable(2, "let", "f" i)
    row(2, "body", "BlockStatement", "")
    for (i = 0; i < size; i++) declared_function(3, "f" i)
}

# { let a0; let a1; .. function f0() {} function f1() {} .. }
function functions_behind_variables(i) {
    row(1, "body", "BlockStatement", "")
    for (i = 0; i < size; i++) variable(2, "let", "a" i)
    for (i = 0; i < size; i++) declared_function(2, "f" i)
}

# { let a0; let a1; .. var a0; var a1; .. }
function vars_over_variables(i) {
    row(1, "body", "BlockStatement", "")
    for (i = 0; i < size; i++) variable(2, "let", "a" i)
    for (i = 0; i < size; i++) variable(2, "var", "a" i)
}

# { let a0; let a1; .. var a1; var a0; }, backwards
function vars_over_variables_backwards(i) {
    row(1, "body", "BlockStatement", "")
    for (i = 0; i < size; i++) variable(2, "let", "a" i)
    for (i = size - 1; i >= 0; i--) variable(2, "var", "a" i)
}

# try {} catch ([a0, a1, ..]) {}
function catch_names(i) {
    row(1, "body", "TryStatement", "")
    row(2, "block", "BlockStatement", "")
    row(2, "handler", "CatchClause", "")
    row(3, "param", "CatchParameter", "")
    row(4, "pattern", "ArrayPattern", "")
    for (i = 0; i < size; i++) row(5, "elements", "BindingIdentifier", "a" i)
    row(3, "body", "BlockStatement", "")
}

# try {} catch ([a0 = function (c) {}, a1 = function (c) {}, ..]) {}
function catch_names_with_functions(i) {
    row(1, "body", "TryStatement", "")
    row(2, "block", "BlockStatement", "")
    row(2, "handler", "CatchClause", "")
    row(3, "param", "CatchParameter", "")
    row(4, "pattern", "ArrayPattern", "")
    for (i = 0; i < size; i++) {
        row(5, "elements", "AssignmentPattern", "")
        row(6, "left", "BindingIdentifier", "a" i)
        expressed_function(6, "right")
        parameter(8)
        row(9, "pattern", "BindingIdentifier", "c")
        row(7, "body", "FunctionBody", "")
    }
    row(3, "body", "BlockStatement", "")
}

# try {} catch (e) { var e; } try {} catch (e) { var e; } ..
function catch_clauses(i) {
    for (i = 0; i < size; i++) {
        row(1, "body", "TryStatement", "")
        row(2, "block", "BlockStatement", "")
        row(2, "handler", "CatchClause", "")
        row(3, "param", "CatchParameter", "")
        row(4, "pattern", "BindingIdentifier", "e")
        row(3, "body", "BlockStatement", "")
        variable(4, "var", "e")
    }
}

# a0; a1; ..
function free_names(i) {
    for (i = 0; i < size; i++) use(1, "a" i)
}

# a; a; ..
function uses_of_one_free_name(i) {
    for (i = 0; i < size; i++) use(1, "a")
}

# let a; a; a; ..
function uses_of_one_symbol(i) {
    variable(1, "let", "a")
    for (i = 0; i < size; i++) use(1, "a")
}

# 500 times var v = function (a = function (a = .. x) {}) {}, with so many functions
function headers_in_headers(i, depth) {
    for (i = 0; i < 500; i++) {
        variable(1, "var", "v")
        for (depth = 3; depth < 3 * size; depth += 3) {
            expressed_function(depth, depth == 3 ? "init" : "initializer")
            parameter(depth + 2)
            row(depth + 3, "pattern", "BindingIdentifier", "a")
        }
        row(depth, "initializer", "IdentifierReference", "x")
        for (depth -= 3; depth > 0; depth -= 3) row(depth + 1, "body", "FunctionBody", "")
    }
}

# function f(a = [b0, b1, ..]) {}
function references_in_a_header(i) {
    parameters()
    parameter(3)
    row(4, "pattern", "BindingIdentifier", "a")
    row(4, "initializer", "ArrayExpression", "")
    for (i = 0; i < size; i++) row(5, "elements", "IdentifierReference", "b" i)
    row(2, "body", "FunctionBody", "")
}

# function f(a = [b0, function () {}, b1, function () {}, ..]) {}
function references_before_headers(i) {
    parameters()
    parameter(3)
    row(4, "pattern", "BindingIdentifier", "a")
    row(4, "initializer", "ArrayExpression", "")
    for (i = 0; i < size; i++) {
        row(5, "elements", "IdentifierReference", "b" i)
        expressed_function(5, "elements")
        row(6, "body", "FunctionBody", "")
    }
    row(2, "body", "FunctionBody", "")
}

# a0: ; a1: ; ..
function labels(i) {
    for (i = 0; i < size; i++) {
        row(1, "body", "LabeledStatement", "")
        row(2, "label", "LabelIdentifier", "a" i)
        row(2, "body", "EmptyStatement", "")
    }
}

# 250 times a1: a2: .. { break a1; break a1; .. }, with so many labels and jumps
function labels_in_labels(i, depth, jumps) {
    for (i = 0; i < 250; i++) {
        for (depth = 1; depth <= size; depth++) {
            row(depth, "body", "LabeledStatement", "")
            row(depth + 1, "label", "LabelIdentifier", "a" depth)
        }
        row(depth, "body", "BlockStatement", "")
        for (jumps = 0; jumps < size; jumps++) {
            row(depth + 1, "body", "BreakStatement", "")
            row(depth + 2, "label", "LabelIdentifier", "a1")
        }
    }
}

# The same with long names.
function long_labels_in_labels(i, depth, jumps) {
    for (i = 0; i < 160; i++) {
        for (depth = 1; depth <= size; depth++) {
            row(depth, "body", "LabeledStatement", "")
            row(depth + 1, "label", "LabelIdentifier", long_name(depth))
        }
        row(depth, "body", "BlockStatement", "")
        for (jumps = 0; jumps < size; jumps++) {
            row(depth + 1, "body", "BreakStatement", "")
            row(depth + 2, "label", "LabelIdentifier", long_name(1))
        }
    }
}

function long_name(number) {
    return sprintf("%0120d", number)
}

# class C { a0() {} a1() {} .. }
function class_elements(i) {
    row(1, "body", "Class", "declaration")
    row(2, "id", "BindingIdentifier", "C")
    row(2, "body", "ClassBody", "")
    for (i = 0; i < size; i++) {
        row(3, "body", "MethodDefinition", "method")
        row(4, "key", "IdentifierName", "a" i)
        expressed_function(4, "value")
        row(5, "body", "FunctionBody", "")
    }
}

# class C { #a0 = this.#a0; #a1 = this.#a1; .. }
function private_names(i) {
    row(1, "body", "Class", "declaration")
    row(2, "id", "BindingIdentifier", "C")
    row(2, "body", "ClassBody", "")
    for (i = 0; i < size; i++) {
        row(3, "body", "PropertyDefinition", "")
        row(4, "key", "PrivateIdentifier", "a" i)
        row(4, "value", "PrivateFieldExpression", "")
        row(5, "object", "ThisExpression", "")
        row(5, "field", "PrivateIdentifier", "a" i)
    }
}

# A text of so many escapes, and as many names of escapes.
function escapes(i) {
    row(1, "body", "ExpressionStatement", "")
    printf ",[2,\"expression\",\"StringLiteral\",0,0,\""
    for (i = 0; i < size; i++) printf "\\n\\u0061\\\\\\\""
    printf "\",[]]"
    for (i = 0; i < size; i++) variable(1, "let", "\\u0061\\n\\\"" i)
}

# Comments alone, at one place.
function comments(i) {
    printf "[0,0,\"line\"]"
    for (i = 1; i < size; i++) printf ",[0,0,\"block\"]"
}

# "é"; "é"; .., each with its span in the source
function spans(i) {
    for (i = 0; i < size; i++) {
        printf ",[1,\"body\",\"ExpressionStatement\",%d,%d,\"\",[]]", 2 * i, 2 * i + 2
        printf ",[2,\"expression\",\"NullLiteral\",%d,%d,\"\",[]]", 2 * i, 2 * i + 2
    }
}

# enum E { A0, A1, .. }
function enum_members(i) {
    row(1, "body", "TSEnumDeclaration", "")
    row(2, "id", "BindingIdentifier", "E")
    row(2, "body", "TSEnumBody", "")
    for (i = 0; i < size; i++) {
        row(3, "members", "TSEnumMember", "")
        row(4, "id", "IdentifierName", "A" i)
    }
}

# import { a0, a1, .. } from "m";
function import_specifiers(i) {
    row(1, "body", "ImportDeclaration", "")
    for (i = 0; i < size; i++) {
        row(2, "specifiers", "ImportSpecifier", "")
        row(3, "imported", "IdentifierName", "a" i)
        row(3, "local", "BindingIdentifier", "a" i)
    }
    row(2, "source", "StringLiteral", "m")
}

# let a0, a1, .. ; export { a0, a1, .. };
function export_specifiers(i) {
    row(1, "body", "VariableDeclaration", "let")
    for (i = 0; i < size; i++) {
        row(2, "declarators", "VariableDeclarator", "")
        row(3, "id", "BindingIdentifier", "a" i)
    }
    row(1, "body", "ExportNamedDeclaration", "")
    for (i = 0; i < size; i++) specifier(2, "a" i)
}

# { let a; a; } { let a; a; } ..
function one_name_in_many_scopes(i) {
    for (i = 0; i < size; i++) {
        row(1, "body", "BlockStatement", "")
        variable(2, "let", "a")
        use(2, "a")
    }
}

# 900 times { { .. a; } }, so deep
function deep_blocks(i, depth) {
    for (i = 0; i < 900; i++) {
        for (depth = 1; depth < size; depth++) row(depth, "body", "BlockStatement", "")
        use(depth, "a")
    }
}

# 900 times { { .. var a; } }, so deep
function deep_vars(i, depth) {
    for (i = 0; i < 900; i++) {
        for (depth = 1; depth < size; depth++) row(depth, "body", "BlockStatement", "")
        variable(depth, "var", "a")
    }
}

# 900 times { { .. function f() {} } }, so deep
function deep_block_functions(i, depth) {
    for (i = 0; i < 900; i++) {
        for (depth = 1; depth < size; depth++) row(depth, "body", "BlockStatement", "")
        declared_function(depth, "f")
    }
}

# "use strict"; "use strict"; ..
function directives(i) {
    for (i = 0; i < size; i++) {
        row(1, "directives", "Directive", "use strict")
        row(2, "expression", "StringLiteral", "use strict")
    }
}

# switch (a) { case b: let c0; case b: let c1; .. }
function switch_cases(i) {
    row(1, "body", "SwitchStatement", "")
    row(2, "discriminant", "IdentifierReference", "a")
    for (i = 0; i < size; i++) {
        row(2, "cases", "SwitchCase", "")
        row(3, "test", "IdentifierReference", "b")
        row(3, "consequent", "VariableDeclaration", "let")
        row(4, "declarators", "VariableDeclarator", "")
        row(5, "id", "BindingIdentifier", "c" i)
    }
}

# type T<A0, A1, ..> = any;
function type_parameters(i) {
    row(1, "body", "TSTypeAliasDeclaration", "")
    row(2, "id", "BindingIdentifier", "T")
    row(2, "typeParameters", "TSTypeParameterDeclaration", "")
    for (i = 0; i < size; i++) {
        row(3, "params", "TSTypeParameter", "")
        row(4, "name", "BindingIdentifier", "A" i)
    }
    row(2, "valueType", "TSAnyKeyword", "")
}

# let [a0, a1, ..] = b;
function elements_of_a_pattern(i) {
    row(1, "body", "VariableDeclaration", "let")
    row(2, "declarators", "VariableDeclarator", "")
    row(3, "id", "ArrayPattern", "")
    for (i = 0; i < size; i++) row(4, "elements", "BindingIdentifier", "a" i)
    row(3, "init", "IdentifierReference", "b")
}

BEGIN {
    language = family ~ /^(namespace|enum|type)/ ? "ts" : "js"
    goal = family ~ /^(import|export)/ ? "module" : "script"
    printf "{\"format\":1,\"goal\":\"%s\",\"lang\":\"%s\",\"source\":\"", goal, language
    if (family == "spans") for (i = 0; i < size; i++) printf "é"
    printf "\",\"comments\":["
    if (family == "comments") comments()
    printf "],\"rows\":[[0,\"root\",\"Program\",0,0,\"\",[]]"
    if (family == "parameters_plain") parameters_plain()
    else if (family == "parameters_with_defaults") parameters_with_defaults()
    else if (family == "parameters_in_patterns") parameters_in_patterns()
    else if (family == "parameters_in_one_pattern") parameters_in_one_pattern()
    else if (family == "parameters_with_functions") parameters_with_functions()
    else if (family == "parameters_of_one_name") parameters_of_one_name()
    else if (family == "namespace_declarations") namespace_declarations()
    else if (family == "namespace_exports") namespace_exports()
    else if (family == "namespace_exported_declarations") namespace_exported_declarations()
    else if (family == "namespace_chain") namespace_chain()
    else if (family == "namespace_ring") namespace_ring()
    else if (family == "namespace_nests") namespace_nests()
    else if (family == "namespaces_of_one_name") namespaces_of_one_name()
    else if (family == "redeclarations") redeclarations()
    else if (family == "conflicts") conflicts()
    else if (family == "functions_of_one_name") functions_of_one_name()
    else if (family == "functions_of_one_block") functions_of_one_block()
    else if (family == "functions_of_many_blocks") functions_of_many_blocks()
    else if (family == "functions_of_blocks_of_their_own") functions_of_blocks_of_their_own()
    else if (family == "functions_below_namesakes") functions_below_namesakes()
    else if (family == "functions_behind_variables") functions_behind_variables()
    else if (family == "vars_over_variables") vars_over_variables()
    else if (family == "vars_over_variables_backwards") vars_over_variables_backwards()
    else if (family == "catch_names") catch_names()
    else if (family == "catch_names_with_functions") catch_names_with_functions()
    else if (family == "catch_clauses") catch_clauses()
    else if (family == "free_names") free_names()
    else if (family == "uses_of_one_free_name") uses_of_one_free_name()
    else if (family == "uses_of_one_symbol") uses_of_one_symbol()
    else if (family == "headers_in_headers") headers_in_headers()
    else if (family == "references_in_a_header") references_in_a_header()
    else if (family == "references_before_headers") references_before_headers()
    else if (family == "labels") labels()
    else if (family == "labels_in_labels") labels_in_labels()
    else if (family == "long_labels_in_labels") long_labels_in_labels()
    else if (family == "class_elements") class_elements()
    else if (family == "private_names") private_names()
    else if (family == "escapes") escapes()
    else if (family == "spans") spans()
    else if (family == "enum_members") enum_members()
    else if (family == "import_specifiers") import_specifiers()
    else if (family == "export_specifiers") export_specifiers()
    else if (family == "one_name_in_many_scopes") one_name_in_many_scopes()
    else if (family == "deep_blocks") deep_blocks()
    else if (family == "deep_vars") deep_vars()
    else if (family == "deep_block_functions") deep_block_functions()
    else if (family == "directives") directives()
    else if (family == "switch_cases") switch_cases()
    else if (family == "type_parameters") type_parameters()
    else if (family == "elements_of_a_pattern") elements_of_a_pattern()
    else if (family != "comments") {
        print "hostile.awk: no family " family >"/dev/stderr"
        exit 2
    }
    printf "]}"
}
