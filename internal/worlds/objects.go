// Objects of Go's package go/types in the form that the library worlds reads.
package worlds

import (
	"encoding/hex"
	"go/constant"
	"go/types"
	"strconv"
	"strings"
)

// Entity is the line of an object.
func Entity(word string, object types.Object) string {
	name := object.Name()
	switch object := object.(type) {
	case *types.Const:
		return word + "const " + name + " " + Value(object.Val()) + " " + ConstantOf(object.Type())
	case *types.Var:
		return map[string]string{"": "var ", "local-": "local "}[word] + name + " " + Term(object.Type())
	case *types.Func:
		return "func " + name + " " + Term(object.Type())
	case *types.TypeName:
		if object.IsAlias() {
			return "alias " + name + " " + Term(object.Type())
		}
		return strings.Replace(Definition(object.Type().(*types.Named)), object.Pkg().Path()+"."+name, name, 1)
	}
	panic(name)
}

func Value(v constant.Value) string {
	switch v.Kind() {
	case constant.Bool:
		return strconv.FormatBool(constant.BoolVal(v))
	case constant.String:
		return "text:" + hex.EncodeToString([]byte(constant.StringVal(v)))
	}
	return constant.ToInt(v).ExactString()
}

func ConstantOf(t types.Type) string {
	if basic, is := t.(*types.Basic); is && basic.Info()&types.IsUntyped != 0 {
		return "untyped-" + strings.TrimPrefix(basic.Name(), "untyped ")
	}
	return Term(t)
}
