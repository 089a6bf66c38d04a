"""Records of a system that were written by hand from docs/LINES.md, as lines of `csi-replay record`: `ALL` has nothing that is to be found, and nor has
`LOST`, where a node was lost."""

# Volume v is at two nodes; w on its way to n1, where it is attached and may be staged; x is deleted; y is at n1, and another node reads it;
# z may be there, or not.
CONTROLLER = (
    '{"next_id":5,"plugin":"controller","session":2,"volumes":['
    '{"attached":[{"capability":{"access":"block","mode":5},"node":"n1","readonly":false},'
    '{"capability":{"access":"mount","fs":"ext4","mode":3},"node":"n2","readonly":true}],'
    '"capabilities":[{"access":"block","mode":5},{"access":"mount","fs":"ext4","mode":3}],'
    '"capacity":10,"id":1,"last":{"call":9,"session":1},"live":true,"name":"v"},'
    '{"attached":[{"capability":{"access":"block","mode":1},"node":"n1","readonly":false}],"capabilities":[{"access":"block","mode":1}],'
    '"capacity":10,"id":2,"last":{"call":12,"session":2},"live":true,"name":"w"},'
    '{"attached":[],"capabilities":[{"access":"block","mode":1}],"capacity":10,"id":3,"last":{"call":3,"session":2},"live":false,"name":"x"},'
    '{"attached":[{"capability":{"access":"block","mode":4},"node":"n1","readonly":false},'
    '{"capability":{"access":"block","mode":4},"node":"n2","readonly":true}],"capabilities":[{"access":"block","mode":4}],'
    '"capacity":10,"id":4,"last":{"call":5,"session":2},"live":true,"name":"y"}]}'
)
N1 = (
    '{"node":"n1","plugin":"node","session":2,"volumes":['
    '{"id":1,"last":{"call":8,"session":1},"published":[{"readonly":false,"target":"/a"},{"readonly":false,"target":"/b"}],'
    '"staged":{"access":"block","mode":5}},'
    '{"id":2,"last":{"call":13,"session":2},"published":[],"staged":{"access":"block","mode":1}},'
    '{"id":3,"last":{"call":2,"session":2},"published":[],"staged":null},'
    '{"id":4,"last":{"call":6,"session":2},"published":[{"readonly":false,"target":"/y"}],"staged":{"access":"block","mode":4}}]}'
)
N2 = (
    '{"node":"n2","plugin":"node","session":1,"volumes":['
    '{"id":1,"last":{"call":7,"session":1},"published":[{"readonly":true,"target":"/c"}],"staged":{"access":"mount","fs":"ext4","mode":3}}]}'
)
ORCHESTRATOR = (
    '{"nodes":["n1","n2"],"plugin":"orchestrator","session":2,"volumes":['
    '{"at":[{"attached":"yes","capability":{"access":"block","mode":5},"node":"n1","published":[{"known":"yes","target":"/a"},'
    '{"known":"maybe","target":"/b"}],"readonly":false,"staged":"yes"},'
    '{"attached":"yes","capability":{"access":"mount","fs":"ext4","mode":3},"node":"n2","published":[{"known":"yes","target":"/c"}],'
    '"readonly":true,"staged":"yes"}],"capabilities":[{"access":"block","mode":5},{"access":"mount","fs":"ext4","mode":3}],"exists":"yes",'
    '"goal":{"stop":{"name":"v","node":"n1","target":"/b"}},"id":1,"limit":0,"name":"v","required":10,"tries":2},'
    '{"at":[{"attached":"yes","capability":{"access":"block","mode":1},"node":"n1","published":[],"readonly":false,"staged":"maybe"}],'
    '"capabilities":[{"access":"block","mode":1}],"exists":"yes",'
    '"goal":{"use":{"capability":{"access":"block","mode":1},"name":"w","node":"n1","readonly":false,"target":"/w"}},'
    '"id":2,"limit":0,"name":"w","required":10,"tries":1},'
    '{"at":[],"capabilities":[{"access":"block","mode":1}],"exists":"no","goal":null,"id":3,"limit":0,"name":"x","required":10,"tries":0},'
    '{"at":[{"attached":"yes","capability":{"access":"block","mode":4},"node":"n1","published":[{"known":"yes","target":"/y"}],'
    '"readonly":false,"staged":"yes"},{"attached":"yes","capability":{"access":"block","mode":4},"node":"n2","published":[],'
    '"readonly":true,"staged":"no"}],"capabilities":[{"access":"block","mode":4}],"exists":"yes","goal":null,"id":4,"limit":20,"name":"y",'
    '"required":10,"tries":0},'
    '{"at":[],"capabilities":[{"access":"block","mode":1}],"exists":"maybe",'
    '"goal":{"create":{"capabilities":[{"access":"block","mode":1}],"limit":0,"name":"z","required":10}},"id":null,"limit":0,"name":"z",'
    '"required":10,"tries":1}]}'
)
PLUGINS = [CONTROLLER, N1, N2]
ALL = [*PLUGINS, ORCHESTRATOR]
NEW = '{"next_id":1,"plugin":"controller","session":0,"volumes":[]}'
V_BLOCK = '"published":[{"readonly":false,"target":"/a"},{"readonly":false,"target":"/b"}],"staged":{"access":"block","mode":5}'
X_GONE = '{"at":[],"capabilities":[{"access":"block","mode":1}],"exists":"no","goal":null,"id":3,"limit":0,"name":"x","required":10,"tries":0},'
Z_ROW = '"id":null,"limit":0,"name":"z"'
# The node n3 was lost: u was attached there, and is to be detached; it isn't listed any more.
U_LEFT = '{"attached":"yes","capability":{"access":"block","mode":1},"node":"n3","published":[],"readonly":false,"staged":"no"}'
U_ROW = (
    '{"at":[%s],"capabilities":[{"access":"block","mode":1}],"exists":"yes","goal":null,"id":5,"limit":0,"name":"u","required":10,"tries":0},' % U_LEFT
)
U_STOP = '"goal":{"stop":{"name":"u","node":"n3","target":"/any"}},"id":5'
U_ATTACHED = '{"attached":[{"capability":{"access":"block","mode":1},"node":"n3","readonly":false}],"capabilities":[{"access":"block","mode":1}],'
LOST_CONTROLLER = CONTROLLER.replace('"next_id":5', '"next_id":6').replace(
    '"name":"y"}', '"name":"y"},' + U_ATTACHED + '"capacity":10,"id":5,"last":{"call":4,"session":1},"live":true,"name":"u"}'
)
LOST_ORCHESTRATOR = ORCHESTRATOR.replace(X_GONE, U_ROW + X_GONE)
OLD_N3 = (
    '{"node":"n3","plugin":"node","session":1,"volumes":['
    '{"id":5,"last":{"call":6,"session":1},"published":[{"readonly":false,"target":"/u"}],"staged":{"access":"block","mode":1}}]}'
)
NEW_N3 = '{"node":"n3","plugin":"node","session":2,"volumes":[]}'
LOST = [LOST_CONTROLLER, N1, N2, LOST_ORCHESTRATOR]
