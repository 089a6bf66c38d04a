package upstream

import (
	"tufayon/service/frames"
	"tufayon/service/records"
	"tufayon/service/serving"
)

const (
	mostRows = 4096 // of a controller's ledger
	mostMade = 2 * mostRows
	together = 32 // rows that are given up at once
)

// madeKey is the key of the volume of a name, if the upstream's id of it is known: who makes a volume again waits for who deletes it.
func (proxy *Proxy) madeKey(name string) string {
	proxy.mutex.Lock()
	defer proxy.mutex.Unlock()
	if id, there := proxy.made[name]; there {
		return keyOfID(id)
	}
	return ""
}

// keepName remembers the id of a volume's name.
func (proxy *Proxy) keepName(view serving.View, name, id string) {
	if len(proxy.made) >= mostMade {
		proxy.readMade(view)
	}
	proxy.mutex.Lock()
	defer proxy.mutex.Unlock()
	proxy.made[name] = id
}

// readMade knows the names of the ledger alone.
func (proxy *Proxy) readMade(view serving.View) {
	made := map[string]string{}
	for _, volume := range view.Volumes() {
		row, err := records.ReadVolume(view.Row(volume))
		if id, there := view.Table().Text(volume); there && err == nil {
			made[row.Name] = id
		}
	}
	proxy.mutex.Lock()
	defer proxy.mutex.Unlock()
	proxy.made = made
}

// unmade gives up volumes of the ledger, where it is full, of which the upstream never gave an id: their CreateVolume failed, and none is under way.
// Nothing can be attached of them.
func (proxy *Proxy) unmade(view serving.View) []frames.Body {
	if view.Count() < mostRows {
		return nil
	}
	var bodies []frames.Body
	for _, volume := range view.Volumes() {
		if _, there := view.Table().Text(volume); there {
			continue
		}
		row, err := records.ReadVolume(view.Row(volume))
		if err == nil && row.Live && !view.IsTaken(keyOfName(row.Name)) && len(bodies) < together {
			bodies = append(bodies, frames.DeleteVolume{ID: volume})
		}
	}
	return bodies
}
