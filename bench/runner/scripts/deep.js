function $depth($n){
  if($n === 0){
    return 0;
  }
  return $depth($n - 1) + 1;
}
function $start(){
  $write(String($depth(1000000)));
}
$start();
