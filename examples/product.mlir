// A product as a generic operation, with the reduction outermost.
func.func @product(%a: tensor<5x3xi32>, %b: tensor<3x7xi32>, %c: tensor<5x7xi32>) -> tensor<5x7xi32> {
  %r = linalg.matmul ins(%a, %b : tensor<5x3xi32>, tensor<3x7xi32>) outs(%c : tensor<5x7xi32>) -> tensor<5x7xi32>
  return %r : tensor<5x7xi32>
}
module attributes {transform.with_named_sequence} {
  transform.named_sequence @__transform_main(%m: !transform.any_op {transform.readonly}) {
    %p = transform.structured.match ops{["linalg.matmul"]} in %m : (!transform.any_op) -> !transform.any_op
    %g = transform.structured.generalize %p : (!transform.any_op) -> !transform.any_op
    %i = transform.structured.interchange %g iterator_interchange = [2, 0, 1] : (!transform.any_op) -> !transform.any_op
    transform.yield
  }
}
