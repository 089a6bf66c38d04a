package life

import (
	"time"

	"tufayon/service/hooks"
	"tufayon/service/mounting"
)

// Deeds say what does what calls ask for.
type Deeds struct {
	Commands map[string]string // by CSI's name of the call
	Within   time.Duration     // how long a command may take
	IsMounts bool              // where no command is given directories are made, and mounts
	Locks    string            // the folder of the volumes' locks
}

// Hooks are what does them: nil where nothing does.
func (deeds Deeds) Hooks() hooks.Hooks {
	commands := hooks.Commands{
		Of: map[string]string{}, Rest: hooks.None{}, Within: deeds.Within, Locks: hooks.Locks{Folder: deeds.Locks},
	}
	for call, command := range deeds.Commands {
		if command != "" {
			commands.Of[call] = command
		}
	}
	if deeds.IsMounts {
		commands.Rest = mounting.Mounts{}
	}
	if len(commands.Of) == 0 && !deeds.IsMounts {
		return nil
	}
	return commands
}
