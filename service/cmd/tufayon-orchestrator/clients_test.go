package main

import (
	"reflect"
	"testing"
	"time"

	"tufayon/service/api"
	"tufayon/service/secure"
)

// The ends of certificates are told of clients that have a role, as they connected last.
func TestClients(t *testing.T) {
	roles := &api.Roles{}
	roles.Set(map[string]api.Role{"ann": api.Reads, "bob": api.Loses}, nil)
	made := &clients{roles: roles, of: map[string]time.Time{}}
	first, second := time.Unix(1000, 0), time.Unix(2000, 0)
	for _, it := range []struct {
		role  secure.Role
		id    string
		until time.Time
	}{{secure.Client, "ann", first}, {secure.Client, "bob", first}, {secure.Client, "eve", first}, {secure.Node, "ann", second}, {secure.Client, "bob", second}} {
		made.seen(secure.Name{Set: "s1", Role: it.role, ID: it.id}, it.until)
	}
	if ends := made.ends(); !reflect.DeepEqual(ends, map[string]time.Time{"ann": first, "bob": second}) {
		t.Errorf("they end %v", ends)
	}
	roles.Set(map[string]api.Role{"bob": api.Reads}, nil)
	if ends := made.ends(); !reflect.DeepEqual(ends, map[string]time.Time{"bob": second}) {
		t.Errorf("one without a role: %v", ends)
	}
}
