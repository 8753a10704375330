// The school's policy and the same work in Casbin: checks, an assignment and its removal, and a load.
// It takes a request, `WORK ROUNDS`, and writes how many answers were yes (or done).
package main

import (
	"fmt"
	"os"
	"strings"

	"github.com/casbin/casbin"
	"github.com/casbin/casbin/model"
	"github.com/casbin/casbin/persist"
)

const rules = `
[request_definition]
r = sub, obj, act

[policy_definition]
p = sub, obj, act

[role_definition]
g = _, _

[policy_effect]
e = some(where (p.eft == allow))

[matchers]
m = g(r.sub, p.sub) && r.obj == p.obj && r.act == p.act
`

// The policy as lines of text, as a Casbin file has them.
type lines []string

func (l lines) LoadPolicy(m model.Model) error {
	for _, line := range l {
		if err := persist.LoadPolicyLine(line, m); err != nil {
			return err
		}
	}
	return nil
}

func (l lines) SavePolicy(model.Model) error                              { return nil }
func (l lines) AddPolicy(string, string, []string) error                  { return nil }
func (l lines) RemovePolicy(string, string, []string) error               { return nil }
func (l lines) RemoveFilteredPolicy(string, string, int, ...string) error { return nil }

func school() lines {
	var l lines
	for b := 0; b < 16; b++ {
		l = append(l, fmt.Sprintf("g, r%d, r%d", b*4+3, b*4), fmt.Sprintf("g, r%d, r%d", b*4+3, b*4+1))
		for k := 0; k < 3; k++ {
			for o := 0; o < 16; o++ {
				l = append(l, fmt.Sprintf("p, r%d, o%d, a%d", b*4+k, b*16+o, k))
			}
		}
	}
	for u := 0; u < 64; u++ {
		l = append(l, fmt.Sprintf("g, u%d, r%d", u, u%16*4+3), fmt.Sprintf("g, u%d, r%d", u, (u%16+1)%16*4+2))
	}
	return l
}

func main() {
	var work string
	var rounds int
	fmt.Fscan(os.Stdin, &work, &rounds)
	m, err := model.NewModelFromString(strings.TrimSpace(rules))
	if err != nil {
		panic(err)
	}
	e, err := casbin.NewEnforcer(m, school())
	if err != nil {
		panic(err)
	}
	e.EnableAutoSave(false)
	// the words of a request are made before the rounds
	var users, roles, objects, acts [256]string
	for i := range users {
		users[i], roles[i], objects[i], acts[i] = fmt.Sprintf("u%d", i), fmt.Sprintf("r%d", i), fmt.Sprintf("o%d", i), fmt.Sprintf("a%d", i)
	}
	yes := 0
	for i := 0; i < rounds; i++ {
		u := i % 8 * 2
		var ok bool
		switch work {
		case "check":
			ok, err = e.Enforce(users[u], objects[i%8*32+i/32%32], acts[i/8%4])
		case "assign":
			spare := roles[(u+2)%16*4+1]
			if ok, err = e.AddGroupingPolicy(users[u], spare); err == nil {
				_, err = e.RemoveGroupingPolicy(users[u], spare)
			}
		case "load":
			err = e.LoadPolicy()
			ok = true
		}
		if err != nil {
			panic(err)
		}
		if ok {
			yes++
		}
	}
	fmt.Println(yes)
}
