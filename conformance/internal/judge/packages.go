//go:build apidiff

// Kinds of change of packages: their names, paths and files.
package main

import (
	"go/token"
	"go/types"
	"path"
	"sort"
	"strconv"
)

var packageKinds = []kind{
	{"package added", (*mutator).addPackage, ""},
	{"package removed", (*mutator).dropPackage, "package added"},
	{"package renamed", (*mutator).renamePackage, ""},
	{"package becomes a command", (*mutator).packageToCommand, "package added"},
	{"package moves to another path", func(m *mutator) bool { return m.movePackage(m.newFolder(""), false) }, ""},
	{"package moves to an internal path", func(m *mutator) bool { return m.movePackage(m.newFolder("internal"), false) }, ""},
	{"package moves to an internal path behind aliases", func(m *mutator) bool { return m.movePackage(m.newFolder("internal"), true) }, ""},
	{"package moves to another path behind aliases", func(m *mutator) bool { return m.movePackage(m.newFolder(""), true) }, ""},
	{"package leaves an internal path", (*mutator).openPackage, "package moves to an internal path behind aliases"},
	{"import renamed", (*mutator).renameImport, ""},
	{"declarations shuffled over files", func(m *mutator) bool { m.news = shuffled(m.Rand, m.view); return true }, ""},
}

func (m *mutator) addPackage() bool {
	folder := m.newFolder("")
	one := m.file()
	text := "package " + path.Base(folder) + "\n\n"
	if m.chance(50) && one.pack.isPublic() {
		if name := m.own(one.pack); name != "" && token.IsExported(name) {
			text += "import own " + strconv.Quote(one.pack.path) + "\n\nvar V *own." + name + "\n\n"
		}
	}
	m.news.files[path.Join(folder, "added.go")] = text + "type Added struct{ Field int }\n\nfunc New() *Added\n\nconst Size = 5\n"
	return true
}

// leaf is a public package that no other one imports.
func (m *mutator) leaf() *pack {
	imported := map[*types.Package]bool{}
	for _, p := range m.packs {
		for _, other := range p.types.Imports() {
			imported[other] = true
		}
	}
	var found []*pack
	for _, p := range m.packs {
		if !imported[p.types] && p.isPublic() {
			found = append(found, p)
		}
	}
	if len(found) == 0 {
		return nil
	}
	return found[m.Intn(len(found))]
}

func (m *mutator) dropPackage() bool {
	p := m.leaf()
	if p == nil || len(m.packs) == 1 {
		return false
	}
	for _, one := range p.files {
		delete(m.news.files, one.place)
	}
	return true
}

// clauses gives the package clauses of a package another name.
func (m *mutator) clauses(p *pack, name string) {
	for _, one := range p.files {
		m.replace(one.file.Name, name)
	}
}

func (m *mutator) renamePackage() bool {
	var public []*pack
	for _, p := range m.packs {
		if p.isPublic() {
			public = append(public, p)
		}
	}
	p, is := some(m, public)
	if !is {
		return false
	}
	for _, other := range m.packs {
		for _, one := range other.files {
			for _, spec := range one.file.Imports {
				if at, _ := strconv.Unquote(spec.Path.Value); at == p.path && spec.Name == nil {
					m.put(spec.Pos(), spec.Pos(), p.types.Name()+" ")
				}
			}
		}
	}
	m.clauses(p, m.fresh("renamed"))
	return true
}

func (m *mutator) packageToCommand() bool {
	p := m.leaf()
	if p == nil {
		return false
	}
	m.clauses(p, "main")
	m.add(p.files[0], "func main() {}")
	return true
}

// movePackage moves a package, with aliases of all that it exports in its place or without.
func (m *mutator) movePackage(folder string, aliases bool) bool {
	var public []*pack
	for _, p := range m.packs {
		if p.isPublic() && p.folder != "." {
			public = append(public, p)
		}
	}
	p, is := some(m, public)
	if !is {
		return false
	}
	m.moveFiles(p, folder)
	m.repointed(p, path.Join(m.tree.module, folder))
	if aliases {
		m.news.files[path.Join(p.folder, "moved.go")] = m.aliasesOf(p, path.Join(m.tree.module, folder))
	}
	return true
}

// moveFiles takes the files of a package, as they are edited later, to another folder.
func (m *mutator) moveFiles(p *pack, folder string) {
	for _, one := range p.files {
		delete(m.news.files, one.place)
		m.news.files[path.Join(folder, path.Base(one.place))] = one.text
	}
}

// repointed makes all other packages import a package by its new path.
func (m *mutator) repointed(p *pack, at string) {
	for _, other := range m.packs {
		for _, one := range other.files {
			for _, spec := range one.file.Imports {
				if said, _ := strconv.Unquote(spec.Path.Value); said == p.path {
					m.replace(spec.Path, strconv.Quote(at))
				}
			}
		}
	}
}

// aliasesOf declares all that a package exports as that of another.
func (m *mutator) aliasesOf(p *pack, at string) string {
	text := "package " + p.types.Name() + "\n\nimport moved " + strconv.Quote(at) + "\n"
	names := p.types.Scope().Names()
	sort.Strings(names)
	for _, name := range names {
		object := p.types.Scope().Lookup(name)
		if !object.Exported() {
			continue
		}
		switch object.(type) {
		case *types.Const:
			text += "\nconst " + name + " = moved." + name + "\n"
		case *types.TypeName:
			text += "\ntype " + name + " = moved." + name + "\n"
		default:
			text += "\nvar " + name + " = moved." + name + "\n"
		}
	}
	return text
}

// openPackage moves an internal package to a public path.
func (m *mutator) openPackage() bool {
	var internal []*pack
	for _, p := range m.packs {
		if p.isInternal() {
			internal = append(internal, p)
		}
	}
	p, is := some(m, internal)
	if !is {
		return false
	}
	folder := m.newFolder("")
	m.moveFiles(p, folder)
	m.repointed(p, path.Join(m.tree.module, folder))
	return true
}

func (m *mutator) renameImport() bool {
	one := m.file()
	spec, is := some(m, one.file.Imports)
	if !is {
		return false
	}
	name := m.fresh("named")
	if spec.Name != nil {
		m.replace(spec.Name, name)
	} else {
		m.put(spec.Pos(), spec.Pos(), name+" ")
	}
	for ident, used := range m.info.Uses {
		if _, is := used.(*types.PkgName); is && m.sourceOf(ident.Pos()) == one {
			at, _ := strconv.Unquote(spec.Path.Value)
			if used.(*types.PkgName).Imported().Path() == at {
				m.replace(ident, name)
			}
		}
	}
	return true
}
