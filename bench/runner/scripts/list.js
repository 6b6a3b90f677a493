function $reversed($list){
  var $made = null;
  while($list !== null){
    var $next = $list[1];
    $list[1] = $made;
    $made = $list;
    $list = $next;
  }
  return $made;
}
function $start(){
  var $list = null;
  var $i = 0;
  while($i < 200000){
    $list = [$i, $list];
    $i = $i + 1;
  }
  var $sum = 0;
  var $round = 0;
  while($round < 24){
    $list = $reversed($list);
    var $at = $list;
    while($at !== null){
      $sum = $sum * 3 + $at[0] | 0;
      $at = $at[1];
    }
    $round = $round + 1;
  }
  $write(String($sum));
}
$start();
