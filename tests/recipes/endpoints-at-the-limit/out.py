"""256 endpoints: the other pod has their labels."""
for i in range(256):
    print(f'{{"op":"endpoint","name":"default/p{i}","labels":["k8s:io.cilium.k8s.policy.cluster=default","k8s:io.kubernetes.pod.namespace=default"],"address":"10.0.0.{i}"}}')
print('{"op":"sync"}')
