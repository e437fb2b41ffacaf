# Steps over a tree of nodes in Godot 3, by its UndoRedo, as its editor takes them:
#
#     WORK=undoredo STEPS=N UNDOS=N godot3-server --no-window -s godot_steps.gd
#
# makes so many actions that each add one child, and undoes so many, newest first. WORK=alone adds and removes the same children
# without UndoRedo, and WORK=answers tries what is taken back, and prints it. The history is left to the end of the process:
# clear_history takes time that grows with its square.
extends SceneTree

const CHILDREN = 100  # of each parent

func _initialize():
	var steps = int(OS.get_environment("STEPS"))
	var undos = int(OS.get_environment("UNDOS"))
	match OS.get_environment("WORK"):
		"undoredo": by_undo_redo(steps, undos)
		"alone": alone(steps, undos)
		"answers": answers()
	quit()

func named(name):
	var node = Node.new()
	node.name = name
	return node

func parents_of(steps):
	var parents = []
	for at in range((steps + CHILDREN - 1) / CHILDREN):
		parents.append(named("parent%d" % at))
		root.add_child(parents[-1])
	return parents

func count(parents):
	var found = parents.size()
	for parent in parents:
		found += parent.get_child_count()
	print("%d parents, then %d nodes in all" % [parents.size(), found])

func add(undo_redo, parent, node):
	undo_redo.create_action("add")
	undo_redo.add_do_method(parent, "add_child", node)
	undo_redo.add_undo_method(parent, "remove_child", node)
	undo_redo.add_do_reference(node)
	undo_redo.commit_action()

func by_undo_redo(steps, undos):
	var parents = parents_of(steps)
	var undo_redo = UndoRedo.new()
	for at in range(steps):
		add(undo_redo, parents[at / CHILDREN], named("node%d" % at))
	for at in range(undos):
		undo_redo.undo()
	count(parents)

func alone(steps, undos):
	var parents = parents_of(steps)
	var nodes = []
	for at in range(steps):
		nodes.append(named("node%d" % at))
		parents[at / CHILDREN].add_child(nodes[-1])
	for at in range(undos):
		nodes[-1].get_parent().remove_child(nodes[-1])
		nodes.pop_back().free()
	count(parents)

func family():
	var parent = named("parent")
	root.add_child(parent)
	for name in ["a", "b", "c", "d"]:
		parent.add_child(named(name))
	return parent

func names(parent):
	var found = PoolStringArray()
	for child in parent.get_children():
		found.append(child.name)
	return found.join(" ")

func take_out(undo_redo, parent, child, has_place):
	undo_redo.create_action("remove")
	undo_redo.add_do_method(parent, "remove_child", child)
	undo_redo.add_undo_method(parent, "add_child", child)
	if has_place:
		undo_redo.add_undo_method(parent, "move_child", child, child.get_index())
	undo_redo.add_undo_reference(child)
	undo_redo.commit_action()

func answers():
	for has_place in [false, true]:
		place(has_place)
	half_done("no_such_method", [])
	half_done("add_child", ["a"])
	ids()
	whole()

func place(has_place):
	var undo_redo = UndoRedo.new()
	var parent = family()
	var before = names(parent)
	take_out(undo_redo, parent, parent.get_node("b"), has_place)
	var between = names(parent)
	undo_redo.undo()
	var how = "the undo adds the child and moves it to its index" if has_place else "the undo adds the child"
	print("place: %s -> %s -> %s, where %s" % [before, between, names(parent), how])
	root.remove_child(parent)

# An action that adds x, calls something that can't be done, and adds y; each with its opposite as the undo.
func half_done(method, words):
	var undo_redo = UndoRedo.new()
	var parent = family()
	var before = names(parent)
	var x = named("x")
	var y = named("y")
	undo_redo.create_action("half")
	undo_redo.add_do_method(parent, "add_child", x)
	if words:
		undo_redo.add_do_method(parent, method, parent.get_node(words[0]))
	else:
		undo_redo.add_do_method(parent, method)
	undo_redo.add_do_method(parent, "add_child", y)
	undo_redo.add_undo_method(parent, "remove_child", y)
	if words:
		undo_redo.add_undo_method(parent, "remove_child", parent.get_node(words[0]))
	undo_redo.add_undo_method(parent, "remove_child", x)
	var answer = undo_redo.commit_action()
	var between = names(parent)
	var undone = undo_redo.undo()
	var what = "add_child of a, which is a child already" if words else "a method that isn't there"
	var told = "half: with %s %s -> %s (commit_action answers %s), and by an undo (%s) -> %s"
	print(told % [what, before, between, answer, undone, names(parent)])
	root.remove_child(parent)

# Whether a node has the id of an earlier one of its name, and its path leads to it.
func known_as(id, node):
	var which = "the same" if node.get_instance_id() == id else "another"
	var leads = "leads to it" if node.get_parent().get_node(node.name) == node else "leads elsewhere"
	return "%s id, and the path of both %s" % [which, leads]

func ids():
	var undo_redo = UndoRedo.new()
	var parent = family()
	var x = named("x")
	add(undo_redo, parent, x)
	var first = x.get_instance_id()
	undo_redo.undo()
	var y = named("x")
	add(undo_redo, parent, y)
	print("undone id: after the undo of x a new node of its name has %s" % known_as(first, y))
	print("undone id: the undone node, after the new action, is %s" % ["freed" if instance_from_id(first) == null else "there"])
	var second = y.get_instance_id()
	parent.remove_child(y)
	var z = named("x")
	parent.add_child(z)
	print("removed id: after its removal a new node of its name has %s" % known_as(second, z))
	root.remove_child(parent)

func whole():
	var undo_redo = UndoRedo.new()
	var parent = family()
	var before = names(parent)
	for at in range(1000):
		add(undo_redo, parent, named("node%d" % at))
	for at in range(1000):
		undo_redo.undo()
	var told = "the same" if names(parent) == before else "others"
	print("whole: names and order of the children after 1,000 additions and their undos: " + told)
	root.remove_child(parent)
