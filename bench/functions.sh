# Read by scripts of bench/: the tree that they measure on.

# A tree of so many nodes at least: one function behind the other, each of 50 nodes.
tree_of_functions() {
    awk -v wanted="$1" '
    function row(depth, role, kind, text) {
        printf ",[%d,\"%s\",\"%s\",0,0,\"%s\",[]]", depth, role, kind, text
    }
    BEGIN {
        count = int(wanted / 50) + 1
        printf "{\"comments\":[],\"format\":1,\"goal\":\"script\",\"lang\":\"js\""
        printf ",\"rows\":[[0,\"root\",\"Program\",0,0,\"\",[]]"
        for (i = 0; i < count; i++) {
            row(1, "body", "Function", "declaration")
            row(2, "id", "BindingIdentifier", sprintf("f%06d", i))
            row(2, "params", "FormalParameters", "formal")
            row(3, "items", "FormalParameter", "")
            row(4, "pattern", "BindingIdentifier", "a")
            row(3, "items", "FormalParameter", "")
            row(4, "pattern", "BindingIdentifier", "b")
            row(4, "initializer", "ArrowFunctionExpression", "")
            row(5, "params", "FormalParameters", "arrow")
            row(6, "items", "FormalParameter", "")
            row(7, "pattern", "BindingIdentifier", "c")
            row(7, "initializer", "IdentifierReference", "a")
            row(5, "body", "IdentifierReference", "c")
            row(2, "body", "FunctionBody", "")
            row(3, "body", "IfStatement", "")
            row(4, "test", "IdentifierReference", "a")
            row(4, "consequent", "BlockStatement", "")
            row(5, "body", "VariableDeclaration", "var")
            row(6, "declarators", "VariableDeclarator", "")
            row(7, "id", "BindingIdentifier", "v")
            row(7, "init", "IdentifierReference", "b")
            row(3, "body", "TryStatement", "")
            row(4, "block", "BlockStatement", "")
            row(5, "body", "ExpressionStatement", "")
            row(6, "expression", "IdentifierReference", "v")
            row(4, "handler", "CatchClause", "")
            row(5, "param", "CatchParameter", "")
            row(6, "pattern", "ArrayPattern", "")
            row(7, "elements", "BindingIdentifier", "e")
            row(5, "body", "BlockStatement", "")
            row(6, "body", "VariableDeclaration", "let")
            row(7, "declarators", "VariableDeclarator", "")
            row(8, "id", "BindingIdentifier", "w")
            row(8, "init", "IdentifierReference", "e")
            row(3, "body", "Class", "declaration")
            row(4, "id", "BindingIdentifier", "C")
            row(4, "body", "ClassBody", "")
            row(5, "body", "MethodDefinition", "method")
            row(6, "key", "IdentifierName", "m")
            row(6, "value", "Function", "expression")
            row(7, "params", "FormalParameters", "formal")
            row(8, "items", "FormalParameter", "")
            row(9, "pattern", "BindingIdentifier", "x")
            row(7, "body", "FunctionBody", "")
            row(8, "body", "ReturnStatement", "")
            row(9, "argument", "BinaryExpression", "+")
            row(10, "left", "IdentifierReference", "x")
            row(10, "right", "IdentifierReference", "g")
            row(3, "body", "ReturnStatement", "")
            row(4, "argument", "IdentifierReference", "C")
        }
        printf "],\"source\":\"\"}"
    }'
}
